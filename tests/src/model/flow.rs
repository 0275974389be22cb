//! Widest and then earliest or latest windows of any size, by minimum-cost flow.
//! Node 0 is session start; event i opens at node i and closes at node n + i. An arc from a to b with cost c
//! demands: tick of b minus tick of a is at most c. Total width is bounded by the cost of a flow that leaves
//! each open, as much as its event weighs, and arrives at each close; a cheapest flow, found by Bellman and Ford, meets the bound, and the
//! windows that reach it are those that keep the demands of the residual network.

use super::{distances, Prefer, Range, Ticket, Window, WEIGHTS};
use std::collections::VecDeque;

/// Arc k and its reverse are 2k and 2k + 1 in the residual network.
struct Residual {
    tail: Vec<usize>,
    head: Vec<usize>,
    cost: Vec<i64>,
    room: Vec<i64>,
    leaving: Vec<Vec<usize>>,
}

impl Residual {
    fn of(nodes: usize, demands: &[(usize, usize, i64)]) -> Residual {
        let arcs = 2 * demands.len();
        let mut residual = Residual {
            tail: Vec::with_capacity(arcs),
            head: Vec::with_capacity(arcs),
            cost: Vec::with_capacity(arcs),
            room: Vec::with_capacity(arcs),
            leaving: vec![Vec::new(); nodes],
        };
        for &(tail, head, cost) in demands {
            residual.add(tail, head, cost, i64::MAX);
            residual.add(head, tail, -cost, 0);
        }
        residual
    }

    fn add(&mut self, tail: usize, head: usize, cost: i64, room: i64) {
        self.leaving[tail].push(self.tail.len());
        self.tail.push(tail);
        self.head.push(head);
        self.cost.push(cost);
        self.room.push(room);
    }

    /// Cheapest costs from `source`, and the arc by which each node is reached. Nodes whose cost fell are
    /// looked at again in turn.
    fn cheapest(&self, source: usize) -> (Vec<i64>, Vec<usize>) {
        let nodes = self.leaving.len();
        let mut cost = vec![i64::MAX; nodes];
        let mut by = vec![usize::MAX; nodes];
        let mut waits = vec![false; nodes];
        let mut queue = VecDeque::from([source]);
        cost[source] = 0;
        while let Some(node) = queue.pop_front() {
            waits[node] = false;
            for &arc in self.leaving[node].iter().filter(|&&arc| self.room[arc] > 0) {
                let head = self.head[arc];
                if cost[node] + self.cost[arc] < cost[head] {
                    cost[head] = cost[node] + self.cost[arc];
                    by[head] = arc;
                    if !waits[head] {
                        waits[head] = true;
                        queue.push_back(head);
                    }
                }
            }
        }
        (cost, by)
    }

    /// Sends up to `units` from `source` to `sink` along the arcs `by`; how many went.
    fn send(&mut self, source: usize, sink: usize, by: &[usize], units: i64) -> i64 {
        let mut path = Vec::new();
        let mut node = sink;
        while node != source {
            path.push(by[node]);
            node = self.tail[by[node]];
        }
        let sent = path.iter().map(|&arc| self.room[arc]).min().unwrap_or(units).min(units);
        for arc in path {
            if self.room[arc] != i64::MAX {
                self.room[arc] -= sent;
            }
            if self.room[arc ^ 1] != i64::MAX {
                self.room[arc ^ 1] += sent;
            }
        }
        sent
    }

    /// The arcs with room, as demands.
    fn usable(&self) -> Vec<(usize, usize, i64)> {
        let usable = (0..self.tail.len()).filter(|&arc| self.room[arc] > 0);
        usable.map(|arc| (self.tail[arc], self.head[arc], self.cost[arc])).collect()
    }
}

/// The demands on opens and closes, as (from, to, most).
fn demands(ticket: &Ticket, ranges: &[Range]) -> Vec<(usize, usize, i64)> {
    let n = ticket.events();
    let mut demands = Vec::new();
    for (k, range) in ranges.iter().enumerate() {
        for (node, (low, high)) in [(k + 1, range.open), (n + k + 1, range.close)] {
            demands.push((node, 0, -(low as i64)));
            demands.push((0, node, high as i64));
        }
        demands.push((n + k + 1, k + 1, 0));
    }
    for rule in &ticket.rules {
        let close = if rule.to == 0 { 0 } else { n + rule.to as usize };
        demands.push((rule.from as usize, close, rule.bound as i64));
    }
    demands
}

/// A cheapest flow from the opens to the closes; none if the demands contradict each other.
fn cheapest_flow(ticket: &Ticket, ranges: &[Range]) -> Option<Residual> {
    let n = ticket.events();
    let nodes = 2 * n + 1;
    let demands = demands(ticket, ranges);
    distances::shortest(nodes, &demands, 0)?;
    let mut residual = Residual::of(nodes, &demands);
    let mut wanted: Vec<i64> = ticket.owners.iter().map(|&owner| WEIGHTS[owner as usize]).collect();
    for source in 1..=n {
        let mut units = WEIGHTS[ticket.owners[source - 1] as usize];
        while units > 0 {
            let (cost, by) = residual.cheapest(source);
            let sink = (1..=n).filter(|&k| wanted[k - 1] > 0).min_by_key(|&k| cost[n + k])?;
            let sent = residual.send(source, n + sink, &by, units.min(wanted[sink - 1]));
            units -= sent;
            wanted[sink - 1] -= sent;
        }
    }
    Some(residual)
}

/// The least tick of each node is what the demands on the way from it to node 0 leave.
fn least_ticks(nodes: usize, demands: &[(usize, usize, i64)]) -> Option<Vec<i64>> {
    let turned: Vec<(usize, usize, i64)> = demands.iter().map(|&(tail, head, cost)| (head, tail, cost)).collect();
    let to_start = distances::shortest(nodes, &turned, 0)?;
    Some(to_start.into_iter().map(|length| -length).collect())
}

/// The greatest tick of each node is what the demands on the way from node 0 to it leave.
fn greatest_ticks(nodes: usize, demands: &[(usize, usize, i64)]) -> Option<Vec<i64>> {
    distances::shortest(nodes, demands, 0)
}

/// The widest fit set within the ranges, and of these the preferred one.
pub fn best(ticket: &Ticket, ranges: &[Range], prefer: Prefer) -> Option<Vec<Window>> {
    let n = ticket.events();
    let demands = cheapest_flow(ticket, ranges)?.usable();
    let ticks = match prefer {
        Prefer::Earliest => least_ticks(2 * n + 1, &demands),
        Prefer::Latest => greatest_ticks(2 * n + 1, &demands),
    }?;
    Some((1..=n).map(|k| Window { open: ticks[k] as u32, close: ticks[n + k] as u32 }).collect())
}
