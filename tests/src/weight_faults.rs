//! Plans and commitments with one planted fault in what a tick of width counts.

use crate::library;
use crate::model::calls::Outcome;
use crate::model::{reading, Commitment, Prefer, Range, Record, Solver, Ticket, Window, DATABASE, DEVICES};

#[derive(Clone, Copy, Debug, PartialEq, Eq)]
pub enum WeightFault {
    /// Every tick counts 1.
    AllOne,
    /// Every tick counts 1 where windows are chosen; the total is right.
    ChoiceOfOne,
    /// Every tick counts 1 in the total; the windows are right.
    TotalOfOne,
    /// A tick of the database counts 1.
    DatabaseOne,
    /// A tick of the camera counts 1.
    CameraOne,
    /// The weights of camera and database exchanged.
    Exchanged,
    /// A tick of the wheel counts 3.
    WheelThree,
    /// A tick of the lamps counts 0.
    LampsNothing,
    /// A tick of the stage counts 3.
    StageThree,
    /// Every tick counts 1 in a latest plan.
    LatestOfOne,
    /// Every tick counts 1 in a commitment.
    CommitsOfOne,
    /// Where an event of the database commits, every tick counts 1.
    DatabaseCommits,
    /// The first line printed has the total in which every tick counts 1.
    PrintsTicks,
    /// The database's windows are then as wide as the others let them be.
    FillsUp,
    /// The database's windows are the earliest in a latest plan, too.
    EarliestInLatest,
    /// The database's free windows are planned anew at a commitment: they may lose ticks.
    ForgetsDatabase,
    /// The database's free windows stay as they are at a commitment.
    KeepsDatabase,
}

pub const WEIGHT_FAULTS: [WeightFault; 17] = [
    WeightFault::AllOne,
    WeightFault::ChoiceOfOne,
    WeightFault::TotalOfOne,
    WeightFault::DatabaseOne,
    WeightFault::CameraOne,
    WeightFault::Exchanged,
    WeightFault::WheelThree,
    WeightFault::LampsNothing,
    WeightFault::StageThree,
    WeightFault::LatestOfOne,
    WeightFault::CommitsOfOne,
    WeightFault::DatabaseCommits,
    WeightFault::PrintsTicks,
    WeightFault::FillsUp,
    WeightFault::EarliestInLatest,
    WeightFault::ForgetsDatabase,
    WeightFault::KeepsDatabase,
];

/// For each device one that weighs what the fault has it weigh.
type Stands = [u8; DEVICES];
const RIGHT: Stands = [0, 1, 2, 3, 4];
const ALL_ONE: Stands = [1; DEVICES];

/// What windows are chosen for: a plan, or a commitment of this device.
#[derive(Clone, Copy, PartialEq, Eq)]
enum Choice {
    Plan(Prefer),
    Commitment(u8),
}

fn choosing(fault: WeightFault, choice: Choice) -> Stands {
    match (fault, choice) {
        (WeightFault::AllOne | WeightFault::ChoiceOfOne, _) => ALL_ONE,
        (WeightFault::LatestOfOne, Choice::Plan(Prefer::Latest)) => ALL_ONE,
        (WeightFault::CommitsOfOne, Choice::Commitment(_)) => ALL_ONE,
        (WeightFault::DatabaseCommits, Choice::Commitment(DATABASE)) => ALL_ONE,
        (WeightFault::DatabaseOne, _) => [0, 1, 2, 3, 1],
        (WeightFault::CameraOne, _) => [1, 1, 2, 3, 4],
        (WeightFault::Exchanged, _) => [4, 1, 2, 3, 0],
        (WeightFault::WheelThree, _) => [0, 0, 2, 3, 4],
        (WeightFault::LampsNothing, _) => [0, 1, 4, 3, 4],
        (WeightFault::StageThree, _) => [0, 1, 2, 0, 4],
        _ => RIGHT,
    }
}

fn totalling(fault: WeightFault) -> Stands {
    match fault {
        WeightFault::TotalOfOne => ALL_ONE,
        WeightFault::ChoiceOfOne => RIGHT,
        _ => choosing(fault, Choice::Plan(Prefer::Earliest)),
    }
}

fn standing(stands: Stands, ticket: &Ticket) -> Ticket {
    Ticket { owners: ticket.owners.iter().map(|&owner| stands[owner as usize]).collect(), ..ticket.clone() }
}

/// The ranges with every window but the database's at the one given.
fn settled(ticket: &Ticket, ranges: &[Range], windows: &[Window]) -> Vec<Range> {
    let fixed = |w: &Window| Range { open: (w.open, w.open), close: (w.close, w.close) };
    let places = ticket.owners.iter().zip(ranges).zip(windows);
    places.map(|((&owner, range), window)| if owner == DATABASE { *range } else { fixed(window) }).collect()
}

/// The windows that the fault chooses within these ranges.
fn chosen(fault: WeightFault, choice: Choice, ticket: &Ticket, ranges: &[Range]) -> Option<Vec<Window>> {
    let prefer = match choice {
        Choice::Plan(prefer) => prefer,
        Choice::Commitment(_) => Prefer::Earliest,
    };
    let best =
        |stands: Stands, ranges: &[Range], prefer: Prefer| standing(stands, ticket).best(ranges, prefer, Solver::Flow);
    let windows = best(choosing(fault, choice), ranges, prefer)?;
    let settled = settled(ticket, ranges, &windows);
    match fault {
        WeightFault::FillsUp => best(ALL_ONE, &settled, prefer),
        WeightFault::EarliestInLatest => best(RIGHT, &settled, Prefer::Earliest),
        _ => Some(windows),
    }
}

/// The record with these windows, and its total as the fault counts it.
fn counted(fault: WeightFault, record: Record, windows: Vec<Window>) -> (Record, i64) {
    let total = standing(totalling(fault), &record.ticket).total(&windows);
    (Record { windows, ..record }, total)
}

pub fn planned(fault: WeightFault, prefer: Prefer, bytes: &[u8]) -> Outcome {
    let (record, _) = library::planned(prefer, bytes)?;
    let ranges = record.ticket.any_windows();
    let windows = chosen(fault, Choice::Plan(prefer), &record.ticket, &ranges).ok_or(9u32)?;
    Ok(counted(fault, record, windows))
}

pub fn committed(fault: WeightFault, bytes: &[u8], commitment: Commitment) -> Outcome {
    let (record, _) = library::committed(bytes, commitment)?;
    let former = reading::record(bytes)?;
    let mut ranges = former.ranges_after(commitment);
    for (place, range) in ranges.iter_mut().enumerate() {
        if record.ticket.owners[place] != DATABASE || record.committed[place] {
            continue;
        }
        let Window { open, close } = former.windows[place];
        match fault {
            WeightFault::ForgetsDatabase => *range = record.ticket.any_windows()[place],
            WeightFault::KeepsDatabase => *range = Range { open: (open, open), close: (close, close) },
            _ => {}
        }
    }
    let owner = record.ticket.owners[commitment.event as usize - 1];
    let windows = chosen(fault, Choice::Commitment(owner), &record.ticket, &ranges);
    let windows = windows.unwrap_or_else(|| record.windows.clone());
    Ok(counted(fault, record, windows))
}

/// What the program shows of a plan.
pub fn shown(fault: WeightFault, outcome: Outcome) -> Outcome {
    outcome.map(|(record, total)| match fault {
        WeightFault::PrintsTicks => {
            let total = standing(ALL_ONE, &record.ticket).total(&record.windows);
            (record, total)
        }
        _ => (record, total),
    })
}
