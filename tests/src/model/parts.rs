//! One device's part of a ticket (02, change 8): its events and point 0 with all distances among these, planned like a
//! ticket. In three ways: by enumeration and by flow, as any ticket is, on the part written out as a ticket; and by pairs.
//!
//! Pairs: all events of a part weigh the same, so the sum of widths is a sum of differences close minus open, whichever open
//! is set against whichever close. A close is at most the distance after another event's open, and after its own open at most
//! the way there and back over another point. So no windows are wider than the cheapest pairing of opens with closes; by
//! duality some are as wide, and these are the ones that meet every bound of the pairing.

use super::{distances, exhaustive, Prefer, Rule, Solver, Ticket, Window, DEVICES, WEIGHTS};

/// D(i, j) in row i.
type Table = Vec<Vec<i64>>;

/// The numbers of the device's events, rising.
pub fn events(ticket: &Ticket, device: u8) -> Vec<usize> {
    (1..=ticket.events()).filter(|&event| ticket.owners[event - 1] == device).collect()
}

/// The distances of a ticket; none if there is no schedule.
pub fn table(ticket: &Ticket, solver: Solver) -> Option<Table> {
    match solver {
        Solver::Exhaustive => exhaustive::table(ticket),
        Solver::Flow => distances::table(ticket),
    }
}

/// The part as a ticket, of up to 40 events and 1,640 rules: for each ordered pair of different points their distance.
pub fn projected(ticket: &Ticket, device: u8, table: &Table) -> Ticket {
    let points: Vec<usize> = [0].into_iter().chain(events(ticket, device)).collect();
    let mut rules = Vec::new();
    for (from, &i) in points.iter().enumerate() {
        let others = points.iter().enumerate().filter(|&(_, &j)| i != j);
        rules.extend(others.map(|(to, &j)| Rule { from: from as u8, to: to as u8, bound: table[i][j] as i32 }));
    }
    Ticket { horizon: ticket.horizon, owners: vec![device; points.len() - 1], rules }
}

/// The part's windows, in the order of its events: by enumeration, or by pairs.
pub fn windows(ticket: &Ticket, device: u8, table: &Table, solver: Solver) -> Vec<Window> {
    let part = projected(ticket, device, table);
    let windows = match solver {
        Solver::Exhaustive => part.best(&part.any_windows(), Prefer::Earliest, solver),
        Solver::Flow => by_pairs(&part),
    };
    windows.expect("a schedule of the whole is one of the part")
}

/// The totals of the five parts, in owner order; none if there is no schedule.
pub fn totals(ticket: &Ticket, solver: Solver) -> Option<[i64; DEVICES]> {
    let table = table(ticket, solver)?;
    Some(std::array::from_fn(|device| {
        let windows = windows(ticket, device as u8, &table, solver);
        projected(ticket, device as u8, &table).total(&windows)
    }))
}

/// The windows of a part written out as a ticket. Open i is node i, close i is node m + i.
fn by_pairs(part: &Ticket) -> Option<Vec<Window>> {
    let m = part.events();
    let mut distance = vec![vec![0; m + 1]; m + 1];
    let mut demands: Vec<(usize, usize, i64)> = (1..=m).map(|event| (m + event, event, 0)).collect();
    for rule in &part.rules {
        let (from, to, bound) = (rule.from as usize, rule.to as usize, rule.bound as i64);
        distance[from][to] = bound;
        demands.push((from, if to == 0 { 0 } else { m + to }, bound));
    }
    // A demand that every widest set meets exactly holds the other way round, too.
    let weighs = part.owners.first().is_some_and(|&owner| WEIGHTS[owner as usize] > 0);
    let met = if weighs { exact(&distance) } else { Vec::new() };
    demands.extend(met.into_iter().map(|(tail, head, cost)| (head, tail, -cost)));
    let turned: Vec<(usize, usize, i64)> = demands.into_iter().map(|(tail, head, cost)| (head, tail, cost)).collect();
    let to_start = distances::shortest(2 * m + 1, &turned, 0)?;
    Some((1..=m).map(|k| Window { open: -to_start[k] as u32, close: -to_start[m + k] as u32 }).collect())
}

/// The demands that a cheapest pairing of opens with closes uses.
fn exact(distance: &Table) -> Vec<(usize, usize, i64)> {
    let m = distance.len() - 1;
    let back = |i: usize, k: usize| distance[i][k] + distance[k][i];
    // From an event back to itself by way of this point.
    let around: Vec<usize> =
        (0..=m).map(|i| (0..=m).filter(|&k| k != i).min_by_key(|&k| back(i, k)).unwrap_or(0)).collect();
    let costs: Table =
        (1..=m).map(|i| (1..=m).map(|j| if i == j { back(i, around[i]) } else { distance[i][j] }).collect()).collect();
    let mut used = Vec::new();
    for (open, close) in pairing(&costs).into_iter().enumerate() {
        let (i, j) = (open + 1, close + 1);
        if i != j {
            used.push((i, m + j, distance[i][j]));
            continue;
        }
        match around[i] {
            0 => used.extend([(i, 0, distance[i][0]), (0, m + i, distance[0][i])]),
            k => used.extend([(i, m + k, distance[i][k]), (m + k, k, 0), (k, m + i, distance[k][i])]),
        }
    }
    used
}

/// For each row a column, no column twice, with the least sum of costs: the Hungarian method. Row by row, a column is
/// freed along the cheapest chain of rows that change theirs; `row_price` and `column_price` keep every cost at least as
/// high as the two prices together.
fn pairing(costs: &Table) -> Vec<usize> {
    const NONE: usize = usize::MAX;
    let m = costs.len();
    let (mut row_price, mut column_price) = (vec![0; m], vec![0; m]);
    let mut row_of = vec![NONE; m];
    for first in 0..m {
        // The least rise of price at which each column is reached, and from which column; the columns that are reached.
        let (mut rise, mut before, mut reached) = (vec![i64::MAX; m], vec![NONE; m], vec![false; m]);
        let (mut row, mut column) = (first, NONE);
        let free = loop {
            for j in (0..m).filter(|&j| !reached[j]) {
                let slack = costs[row][j] - row_price[row] - column_price[j];
                if slack < rise[j] {
                    (rise[j], before[j]) = (slack, column);
                }
            }
            let next = (0..m).filter(|&j| !reached[j]).min_by_key(|&j| rise[j]).expect("a column is free");
            let step = rise[next];
            row_price[first] += step;
            for j in 0..m {
                if reached[j] {
                    row_price[row_of[j]] += step;
                    column_price[j] -= step;
                } else {
                    rise[j] -= step;
                }
            }
            reached[next] = true;
            if row_of[next] == NONE {
                break next;
            }
            (row, column) = (row_of[next], next);
        };
        let mut at = free;
        while before[at] != NONE {
            row_of[at] = row_of[before[at]];
            at = before[at];
        }
        row_of[at] = first;
    }
    let mut column_of = vec![0; m];
    row_of.iter().enumerate().for_each(|(column, &row)| column_of[row] = column);
    column_of
}

/// The part's windows by flow.
pub fn by_flow(ticket: &Ticket, device: u8, table: &Table) -> Option<Vec<Window>> {
    let part = projected(ticket, device, table);
    part.best(&part.any_windows(), Prefer::Earliest, Solver::Flow)
}
