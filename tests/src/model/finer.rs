//! 02, change 10: windows whose ends are multiples of a q-th tick. Counted in q-th parts their ends are whole, and they are
//! the windows of a ticket with q times the horizon and the bounds, and the same owners.

use super::{Commitment, Prefer, Range, Record, Rule, Solver, Ticket, Window};

/// How many parts of a tick are tried.
pub const PARTS: std::ops::RangeInclusive<u32> = 2..=7;

/// Which sets of windows are allowed: any of a ticket, or those that a commitment on a record leaves.
#[derive(Clone, Copy, Debug)]
pub enum Allowed<'a> {
    Any(&'a Ticket),
    After(&'a Record, Commitment),
}

pub fn ticket(of: &Ticket, q: u32) -> Ticket {
    let rule = |rule: &Rule| Rule { bound: rule.bound * q as i32, ..*rule };
    Ticket { horizon: of.horizon * q, owners: of.owners.clone(), rules: of.rules.iter().map(rule).collect() }
}

pub fn window(of: Window, q: u32) -> Window {
    Window { open: of.open * q, close: of.close * q }
}

pub fn record(of: &Record, q: u32) -> Record {
    let windows = of.windows.iter().map(|&of| window(of, q)).collect();
    Record { ticket: ticket(&of.ticket, q), windows, ..of.clone() }
}

pub fn commitment(of: Commitment, q: u32) -> Commitment {
    Commitment { open: of.open * q, close: of.close * q, ..of }
}

/// Grids of q parts to a tick. A faulty one overrides how it counts, what it allows or what it totals.
pub trait Grid: Sync {
    fn parts(&self, q: u32) -> u32 {
        q
    }

    fn ticket(&self, of: &Ticket, q: u32) -> Ticket {
        ticket(of, q)
    }

    /// What each window may be after a commitment, on a record in parts: the event's is the one named, the other committed
    /// ones stay, free ones keep all they had.
    fn ranges_after(&self, record: &Record, commitment: Commitment) -> Vec<Range> {
        record.ranges_after(commitment)
    }

    /// The weighted total in parts.
    fn total(&self, ticket: &Ticket, windows: &[Window]) -> i64 {
        ticket.total(windows)
    }

    /// The ticket and what each window may be, in parts.
    fn counted(&self, allowed: Allowed, q: u32) -> (Ticket, Vec<Range>) {
        let q = self.parts(q);
        match allowed {
            Allowed::Any(of) => {
                let ticket = self.ticket(of, q);
                let ranges = ticket.any_windows();
                (ticket, ranges)
            }
            Allowed::After(of, named) => {
                let record = Record { ticket: self.ticket(&of.ticket, q), ..record(of, q) };
                let ranges = self.ranges_after(&record, commitment(named, q));
                (record.ticket, ranges)
            }
        }
    }

    /// How many lists of opens and closes there are in what is allowed.
    fn lists(&self, allowed: Allowed, q: u32) -> f64 {
        let count = |(low, high): (u32, u32)| (high - low) as f64 + 1.0;
        self.counted(allowed, q).1.iter().map(|range| count(range.open) * count(range.close)).product()
    }

    /// The total, in parts, of the widest fit windows that are allowed; none if none is fit.
    fn widest(&self, allowed: Allowed, prefer: Prefer, q: u32, solver: Solver) -> Option<i64> {
        let (ticket, ranges) = self.counted(allowed, q);
        let windows = ticket.best(&ranges, prefer, solver)?;
        Some(self.total(&ticket, &windows))
    }
}

/// The grids as they should be.
pub struct Finer;

impl Grid for Finer {}
