//! The definitions of 01 by enumeration, for tiny tickets: every schedule, every set of windows,
//! every choice of one tick in each window.

use super::{Prefer, Range, Ticket, Window};

/// Which lists of n ticks in 0 to H are schedules; the list (t1, .., tn) is the number with these digits.
struct Schedules {
    ticks: usize,
    is_schedule: Vec<bool>,
}

impl Schedules {
    fn of(ticket: &Ticket) -> Schedules {
        let ticks = ticket.horizon as usize + 1;
        let count = ticks.pow(ticket.events() as u32);
        let is_schedule = (0..count).map(|code| keeps_rules(ticket, &times(code, ticks, ticket.events())));
        Schedules { ticks, is_schedule: is_schedule.collect() }
    }

    /// Whether every choice of one tick in each window, the first ticks given by `code`, is a schedule.
    fn all_choices(&self, windows: &[Window], code: usize) -> bool {
        match windows.split_first() {
            None => self.is_schedule[code],
            Some((window, rest)) => {
                (window.open..=window.close).all(|tick| self.all_choices(rest, code * self.ticks + tick as usize))
            }
        }
    }
}

/// Point 0 at 0, then the digits of `code`.
fn times(mut code: usize, ticks: usize, events: usize) -> Vec<i64> {
    let mut times = vec![0; events + 1];
    for event in (1..=events).rev() {
        times[event] = (code % ticks) as i64;
        code /= ticks;
    }
    times
}

fn keeps_rules(ticket: &Ticket, times: &[i64]) -> bool {
    ticket.rules.iter().all(|r| times[r.to as usize] - times[r.from as usize] <= r.bound as i64)
}

/// Whether any list of ticks is a schedule.
pub fn has_schedule(ticket: &Ticket) -> bool {
    Schedules::of(ticket).is_schedule.contains(&true)
}

/// Whether the windows are fit, by trying every choice.
pub fn fit(ticket: &Ticket, windows: &[Window]) -> bool {
    Schedules::of(ticket).all_choices(windows, 0)
}

/// The largest time of j minus time of i over all schedules; none if there is no schedule.
pub fn table(ticket: &Ticket) -> Option<Vec<Vec<i64>>> {
    let schedules = Schedules::of(ticket);
    let points = ticket.events() + 1;
    let mut largest: Option<Vec<Vec<i64>>> = None;
    for code in (0..schedules.is_schedule.len()).filter(|&code| schedules.is_schedule[code]) {
        let times = times(code, schedules.ticks, ticket.events());
        let table = largest.get_or_insert_with(|| vec![vec![i64::MIN; points]; points]);
        for (i, row) in table.iter_mut().enumerate() {
            for (j, entry) in row.iter_mut().enumerate() {
                *entry = (*entry).max(times[j] - times[i]);
            }
        }
    }
    largest
}

/// Every window within a range.
fn windows_within(range: &Range) -> Vec<Window> {
    let opens = range.open.0..=range.open.1;
    let pairs = opens.flat_map(|open| (range.close.0..=range.close.1).map(move |close| Window { open, close }));
    pairs.filter(|w| w.open <= w.close).collect()
}

/// Of all fit sets within the ranges the widest ones: their total, and the least or the greatest open and close of each
/// event that any of them has.
struct Widest {
    prefer: Prefer,
    total: i64,
    ends: Option<Vec<Window>>,
}

impl Widest {
    fn add(&mut self, total: i64, windows: &[Window]) {
        let better = match self.prefer {
            Prefer::Earliest => u32::min,
            Prefer::Latest => u32::max,
        };
        match &mut self.ends {
            Some(ends) if total == self.total => {
                for (kept, window) in ends.iter_mut().zip(windows) {
                    kept.open = better(kept.open, window.open);
                    kept.close = better(kept.close, window.close);
                }
            }
            _ => {
                self.total = total;
                self.ends = Some(windows.to_vec());
            }
        }
    }
}

/// The widest fit set within the ranges, and of these the preferred one.
pub fn best(ticket: &Ticket, ranges: &[Range], prefer: Prefer) -> Option<Vec<Window>> {
    best_of(&Schedules::of(ticket), ticket, ranges, prefer)
}

/// A device's part with no distance looked at: the windows of its events of which every choice is what some schedule of the
/// whole ticket has for them, the widest and of these the earliest.
pub fn extended(ticket: &Ticket, device: u8) -> Option<Vec<Window>> {
    let schedules = Schedules::of(ticket);
    let events: Vec<usize> = (1..=ticket.events()).filter(|&event| ticket.owners[event - 1] == device).collect();
    let mut goes_on = vec![false; schedules.ticks.pow(events.len() as u32)];
    for code in (0..schedules.is_schedule.len()).filter(|&code| schedules.is_schedule[code]) {
        let times = times(code, schedules.ticks, ticket.events());
        goes_on[events.iter().fold(0, |code, &event| code * schedules.ticks + times[event] as usize)] = true;
    }
    let alone = Ticket { owners: vec![device; events.len()], rules: Vec::new(), ..*ticket };
    let parts = Schedules { is_schedule: goes_on, ..schedules };
    best_of(&parts, &alone, &alone.any_windows(), Prefer::Earliest)
}

/// The widest set within the ranges of which every choice is one of these schedules, and of these the preferred one.
fn best_of(schedules: &Schedules, ticket: &Ticket, ranges: &[Range], prefer: Prefer) -> Option<Vec<Window>> {
    let choices: Vec<Vec<Window>> = ranges.iter().map(windows_within).collect();
    let mut widest = Widest { prefer, total: -1, ends: None };
    let mut place = vec![0; choices.len()];
    if choices.iter().any(|list| list.is_empty()) {
        return None;
    }
    loop {
        let windows: Vec<Window> = choices.iter().zip(&place).map(|(list, &k)| list[k]).collect();
        let total = ticket.total(&windows);
        if total >= widest.total && schedules.all_choices(&windows, 0) {
            widest.add(total, &windows);
        }
        let Some(step) = (0..place.len()).find(|&k| place[k] + 1 < choices[k].len()) else {
            break;
        };
        place[step] += 1;
        place[..step].fill(0);
    }
    let ends = widest.ends?;
    let one_of_them = schedules.all_choices(&ends, 0) && ticket.total(&ends) == widest.total;
    assert!(one_of_them, "of the widest sets none has every open and close");
    Some(ends)
}
