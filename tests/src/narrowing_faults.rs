//! Commitments, and reading and writing of records, with one planted fault in narrowing again.

use crate::faults::afresh;
use crate::library::{self, Library, Model};
use crate::model::calls::{self, LooseRecord, Outcome};
use crate::model::{flags, reading, writing, Commitment, Prefer, Range, Record, Solver, Window};
use crate::model::{DEVICES, MOST_ACCEPTED};

#[derive(Clone, Copy, Debug, PartialEq, Eq)]
pub enum NarrowingFault {
    /// A second commitment of an event refused under 12.
    AlreadyCommitted,
    /// A second commitment of an event accepted with the record as it was.
    Echoes,
    /// A second commitment of an event accepted with the record as it was but for the device's count.
    EchoesCounted,
    /// The same window again accepted with the record as it was but for the device's count.
    SameEchoed,
    /// At a second commitment the event narrows, and nothing widens.
    NoWideningAgain,
    /// At a second commitment free windows are planned anew: they may lose ticks.
    AfreshAgain,
    /// At a second commitment the event keeps its present window.
    KeepsPresent,
    /// At a second commitment the event's window may be wider than the one named.
    NamedGrows,
    /// A committed window replaced by any that leaves the windows fit.
    GrowsAgain,
    /// What is outside of a committed window cut off, and the rest accepted.
    CutToFit,
    /// The other committed windows grow like free ones.
    OthersGrow,
    /// A second commitment clears the event's flag.
    FlagCleared,
    /// The count does not rise at a second commitment.
    CountsEvents,
    /// No count rises.
    CountStays,
    /// The count after a commitment is that of the flags set of the device's events.
    CountsFlags,
    /// The upper byte of the count stays.
    LowByte,
    /// After 65,535 comes 0.
    Wraps,
    /// The count stays at 65,535, and the commitment is accepted.
    StaysAtMost,
    /// 18 at 65,534 already.
    FullEarly,
    /// 18 only at a second commitment; at a first one the count becomes 0.
    FullAgainOnly,
    /// 18 before 13.
    FullBeforeInside,
    /// 18 before 20.
    FullBeforeEvent,
    /// 18 before 15.
    FullBeforeFit,
    /// 18 with the record's length.
    FullLength,
    /// 18 with the record in the output.
    FullWrites,
    /// 18 with the scratch as it was.
    FullDirtyScratch,
    /// 14 where a count that is read is above the device's flags.
    ReadsFlags,
    /// 14 where a count that is read is above the number of events.
    ReadsUpToEvents,
    /// 14 where a count that is written is above the device's flags.
    WritesFlags,
    /// The number of the device's flags written where the given count is below it.
    WritesBelow,
    /// The last two bytes written of a count above 65,535.
    WritesCut,
}

pub const NARROWING_FAULTS: [NarrowingFault; 31] = [
    NarrowingFault::AlreadyCommitted,
    NarrowingFault::Echoes,
    NarrowingFault::EchoesCounted,
    NarrowingFault::SameEchoed,
    NarrowingFault::NoWideningAgain,
    NarrowingFault::AfreshAgain,
    NarrowingFault::KeepsPresent,
    NarrowingFault::NamedGrows,
    NarrowingFault::GrowsAgain,
    NarrowingFault::CutToFit,
    NarrowingFault::OthersGrow,
    NarrowingFault::FlagCleared,
    NarrowingFault::CountsEvents,
    NarrowingFault::CountStays,
    NarrowingFault::CountsFlags,
    NarrowingFault::LowByte,
    NarrowingFault::Wraps,
    NarrowingFault::StaysAtMost,
    NarrowingFault::FullEarly,
    NarrowingFault::FullAgainOnly,
    NarrowingFault::FullBeforeInside,
    NarrowingFault::FullBeforeEvent,
    NarrowingFault::FullBeforeFit,
    NarrowingFault::FullLength,
    NarrowingFault::FullWrites,
    NarrowingFault::FullDirtyScratch,
    NarrowingFault::ReadsFlags,
    NarrowingFault::ReadsUpToEvents,
    NarrowingFault::WritesFlags,
    NarrowingFault::WritesBelow,
    NarrowingFault::WritesCut,
];

/// The record as the fault reads it.
fn read(fault: NarrowingFault, bytes: &[u8]) -> Result<Record, u32> {
    let record = reading::record(bytes)?;
    let most = match fault {
        NarrowingFault::ReadsFlags => flags(&record.ticket.owners, &record.committed),
        NarrowingFault::ReadsUpToEvents => [record.windows.len() as u32; DEVICES],
        _ => [MOST_ACCEPTED; DEVICES],
    };
    if record.counts.iter().zip(most).all(|(&count, most)| count <= most) {
        Ok(record)
    } else {
        Err(14)
    }
}

/// What the windows may be where the fault takes them out of other ranges.
fn ranges(fault: NarrowingFault, former: &Record, commitment: Commitment) -> Option<Vec<Range>> {
    let place = commitment.event as usize - 1;
    match fault {
        NarrowingFault::KeepsPresent if former.committed[place] => {
            let Window { open, close } = former.windows[place];
            Some(former.ranges_after(Commitment { open, close, ..commitment }))
        }
        NarrowingFault::NamedGrows if former.committed[place] => {
            let mut ranges = former.ranges_after(commitment);
            ranges[place].open.0 = 0;
            ranges[place].close.1 = former.ticket.horizon;
            Some(ranges)
        }
        NarrowingFault::OthersGrow => {
            let free = Record { committed: vec![false; former.windows.len()], ..former.clone() };
            Some(free.ranges_after(commitment))
        }
        _ => None,
    }
}

/// What the fault makes of a commitment that is accepted with this record.
fn accepted(fault: NarrowingFault, former: Record, commitment: Commitment, mut record: Record) -> Outcome {
    let place = commitment.event as usize - 1;
    let owner = record.ticket.owners[place] as usize;
    let named = record.windows[place];
    let again = former.committed[place];
    if let Some(ranges) = ranges(fault, &former, commitment) {
        record.windows = record.ticket.best(&ranges, Prefer::Earliest, Solver::Flow).unwrap_or(record.windows);
    }
    match fault {
        NarrowingFault::AlreadyCommitted if again => return Err(12),
        NarrowingFault::FullEarly if former.counts[owner] == MOST_ACCEPTED - 1 => return Err(18),
        NarrowingFault::AfreshAgain if again => return Ok(afresh(record)),
        NarrowingFault::Echoes if again => record = former,
        NarrowingFault::EchoesCounted if again => record.windows = former.windows,
        NarrowingFault::SameEchoed if again && former.windows[place] == named => record.windows = former.windows,
        NarrowingFault::NoWideningAgain if again => {
            record.windows = former.windows;
            record.windows[place] = named;
        }
        NarrowingFault::FlagCleared if again => record.committed[place] = false,
        NarrowingFault::CountsEvents if again => record.counts = former.counts,
        NarrowingFault::CountStays => record.counts = former.counts,
        NarrowingFault::CountsFlags => {
            record.counts[owner] = flags(&record.ticket.owners, &record.committed)[owner];
        }
        NarrowingFault::LowByte => {
            record.counts[owner] = former.counts[owner] / 256 * 256 + record.counts[owner] % 256;
        }
        _ => {}
    }
    let total = record.ticket.total(&record.windows);
    Ok((record, total))
}

/// What the fault makes of a commitment that is refused under this number.
fn refused(fault: NarrowingFault, former: Record, commitment: Commitment, number: u32) -> Outcome {
    let committed = |k: usize| former.committed[k];
    let place = (commitment.event as usize).wrapping_sub(1);
    // Where there is no such event, any device's count counts.
    let full = match former.ticket.owners.get(place) {
        Some(&owner) => former.counts[owner as usize] == MOST_ACCEPTED,
        None => former.counts.contains(&MOST_ACCEPTED),
    };
    match (fault, number) {
        (NarrowingFault::FullBeforeInside, 13) if full => Err(18),
        (NarrowingFault::FullBeforeEvent, 20) if full => Err(18),
        (NarrowingFault::FullBeforeFit, 15) if full => Err(18),
        (NarrowingFault::Wraps, 18) => with_count(0, former, commitment),
        (NarrowingFault::StaysAtMost, 18) => with_count(MOST_ACCEPTED, former, commitment),
        (NarrowingFault::FullAgainOnly, 18) if !committed(place) => with_count(0, former, commitment),
        (NarrowingFault::GrowsAgain, 13) if committed(place) => {
            let mut replaced = former;
            replaced.windows[place] = Window { open: commitment.open, close: commitment.close };
            library::committed(&writing::record(&replaced), commitment).map_err(|_| 13)
        }
        (NarrowingFault::CutToFit, 13) if committed(place) => {
            let Window { open, close } = former.windows[place];
            let cut = |tick: u32| tick.clamp(open, close);
            let (open, close) = (cut(commitment.open), cut(commitment.close));
            library::committed(&writing::record(&former), Commitment { open, close, ..commitment })
        }
        _ => Err(number),
    }
}

/// The commitment as if the device's count had room, which then becomes this one.
fn with_count(count: u32, mut former: Record, commitment: Commitment) -> Outcome {
    let owner = former.ticket.owners[commitment.event as usize - 1] as usize;
    former.counts[owner] = MOST_ACCEPTED - 1;
    let (mut record, total) = library::committed(&writing::record(&former), commitment)?;
    record.counts[owner] = count;
    Ok((record, total))
}

pub fn committed(fault: NarrowingFault, bytes: &[u8], commitment: Commitment) -> Outcome {
    reading::caller_in_range(commitment.caller)?;
    let former = read(fault, bytes)?;
    match library::committed(bytes, commitment) {
        Ok((record, _)) => accepted(fault, former, commitment, record),
        Err(number) => refused(fault, former, commitment, number),
    }
}

/// Number and length of a record that is read with this fault and written again.
pub fn rewrite_record(fault: NarrowingFault, bytes: &[u8], out: &mut [u8]) -> (u32, u32) {
    match read(fault, bytes) {
        Err(number) if out.len() >= calls::RECORD => (number, 0),
        _ => Model.rewrite_record(bytes, out),
    }
}

/// Number and length of a record of any values that is written with this fault.
pub fn write_record(fault: NarrowingFault, loose: &LooseRecord, out: &mut [u8]) -> (u32, u32) {
    let events = loose.ticket.events.min(40) as usize;
    let set = flags(&loose.ticket.owners, &loose.flags.map(|flag| flag == 1)[..events]);
    let written = |(count, set): (u32, u32)| match fault {
        NarrowingFault::WritesFlags if count > set => u32::MAX,
        NarrowingFault::WritesBelow => count.max(set),
        NarrowingFault::WritesCut => count % 65_536,
        _ => count,
    };
    let counts = loose.first_counts().into_iter().zip(set).map(written).collect();
    Model.write_record(&LooseRecord { counts, ..loose.clone() }, out)
}
