//! The mirror of 02, change 1: each time t becomes H - t. The model does not use it; it is compared with it.

use crate::model::{Prefer, Rule, Solver, Ticket, Window};

/// The ticket with its rules mirrored. A bound may pass a ticket's range.
pub fn ticket(ticket: &Ticket) -> Ticket {
    let h = ticket.horizon as i32;
    let turned = |r: &Rule| match (r.from, r.to) {
        (0, to) => Rule { from: to, to: 0, bound: r.bound - h },
        (from, 0) => Rule { from: 0, to: from, bound: r.bound + h },
        (from, to) => Rule { from: to, to: from, bound: r.bound },
    };
    Ticket { rules: ticket.rules.iter().map(turned).collect(), ..ticket.clone() }
}

/// The windows mirrored: the open is H minus the close, and the close H minus the open.
pub fn windows(horizon: u32, windows: &[Window]) -> Vec<Window> {
    windows.iter().map(|w| Window { open: horizon - w.close, close: horizon - w.open }).collect()
}

/// The latest of the widest windows: the mirror of the earliest ones of the mirror.
pub fn latest(of: &Ticket) -> Option<Vec<Window>> {
    let mirror = ticket(of);
    let earliest = mirror.best(&mirror.any_windows(), Prefer::Earliest, Solver::Flow)?;
    Some(windows(of.horizon, &earliest))
}
