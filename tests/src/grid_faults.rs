//! Finer grids with one planted fault each, beside a right library: every one has wider windows than there are, and has to be
//! found as a grid that would win.

use crate::model::finer::{self, Grid};
use crate::model::{Commitment, Range, Record, Rule, Ticket, Window, WEIGHTS};

#[derive(Clone, Copy, Debug, PartialEq, Eq)]
pub enum GridFault {
    /// Windows may close one part past the horizon.
    PastHorizon,
    /// Each bound is longer by the parts of a tick but one: what is fit on whole ticks counts as fit.
    WholeTicks,
    /// A bound below 0 is one part nearer to 0.
    ShortGaps,
    /// A bound of 0 is one part.
    OnePartForNone,
    /// Rules from session start, which say how late an event may be, are one part longer.
    LateLimits,
    /// Rules to session start, which say how early an event may be, are counted in ticks.
    EarlyLimits,
    /// The last rule is not kept.
    LastRule,
    /// A tick has one part more.
    OneMorePart,
    /// Each window counts as one part wider.
    WiderWindows,
    /// A part of the database's windows counts 1.
    DatabaseOne,
    /// After a commitment free windows need not contain what they had.
    ForgetsFormer,
    /// After a commitment the other committed windows may grow like free ones.
    CommittedGrow,
    /// After a commitment the event's window may be wider than the one named.
    NamedGrows,
}

pub const GRID_FAULTS: [GridFault; 13] = [
    GridFault::PastHorizon,
    GridFault::WholeTicks,
    GridFault::ShortGaps,
    GridFault::OnePartForNone,
    GridFault::LateLimits,
    GridFault::EarlyLimits,
    GridFault::LastRule,
    GridFault::OneMorePart,
    GridFault::WiderWindows,
    GridFault::DatabaseOne,
    GridFault::ForgetsFormer,
    GridFault::CommittedGrow,
    GridFault::NamedGrows,
];

const WHEEL: u8 = 1;
const DATABASE: u8 = 4;

pub struct FaultyGrid {
    pub fault: GridFault,
}

impl FaultyGrid {
    /// The bound in parts of a rule with this bound in ticks.
    fn bound(&self, rule: &Rule, q: i32) -> i32 {
        let right = q * rule.bound;
        match self.fault {
            GridFault::WholeTicks => right + q - 1,
            GridFault::ShortGaps if rule.bound < 0 => right + 1,
            GridFault::OnePartForNone if rule.bound == 0 => 1,
            GridFault::LateLimits if rule.from == 0 => right + 1,
            GridFault::EarlyLimits if rule.to == 0 && rule.bound < 0 => rule.bound,
            _ => right,
        }
    }
}

impl Grid for FaultyGrid {
    fn parts(&self, q: u32) -> u32 {
        q + (self.fault == GridFault::OneMorePart) as u32
    }

    fn ticket(&self, of: &Ticket, q: u32) -> Ticket {
        let mut ticket = finer::ticket(of, q);
        for (rule, old) in ticket.rules.iter_mut().zip(&of.rules) {
            rule.bound = self.bound(old, q as i32);
        }
        match self.fault {
            GridFault::PastHorizon => ticket.horizon += 1,
            GridFault::LastRule => _ = ticket.rules.pop(),
            GridFault::DatabaseOne => {
                let of_database = ticket.owners.iter_mut().filter(|owner| **owner == DATABASE);
                of_database.for_each(|owner| *owner = WHEEL);
            }
            _ => {}
        }
        ticket
    }

    fn ranges_after(&self, record: &Record, commitment: Commitment) -> Vec<Range> {
        let mut ranges = record.ranges_after(commitment);
        let grown = |open: u32, close: u32| Range { open: (0, open), close: (close, record.ticket.horizon) };
        for (place, range) in ranges.iter_mut().enumerate() {
            let Window { open, close } = record.windows[place];
            let named = place + 1 == commitment.event as usize;
            match self.fault {
                GridFault::ForgetsFormer if !named && !record.committed[place] => {
                    *range = record.ticket.any_windows()[place];
                }
                GridFault::CommittedGrow if !named => *range = grown(open, close),
                GridFault::NamedGrows if named => *range = grown(commitment.open, commitment.close),
                _ => {}
            }
        }
        ranges
    }

    fn total(&self, ticket: &Ticket, windows: &[Window]) -> i64 {
        let weights = ticket.owners.iter().map(|&owner| WEIGHTS[owner as usize]).sum::<i64>();
        ticket.total(windows) + if self.fault == GridFault::WiderWindows { weights } else { 0 }
    }
}
