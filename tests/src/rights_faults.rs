//! Commitments and views with one planted fault in what they make of their caller, and in what a view shows.

use crate::faults::afresh;
use crate::library;
use crate::model::calls::{self, Answer, Outcome};
use crate::model::{reading, writing, Commitment, Record, Rule, Window, DATABASE, DEVICES, MOST_ACCEPTED};

#[derive(Clone, Copy, Debug, PartialEq, Eq)]
pub enum CallFault {
    /// The caller not looked at.
    Ignored,
    /// Any of the five devices commits any event.
    AnyDevice,
    /// The caller not looked at by the C door.
    IgnoredByDoor,
    /// The database commits any event.
    DatabaseAll,
    /// The camera commits any event.
    CameraAll,
    /// Any device commits the database's events.
    DatabasesByAll,
    /// Any device narrows a committed event.
    CommittedByAll,
    /// Any device commits an event to the window that it has.
    SameByAll,
    /// The owner of the next event looked at.
    NextOwner,
    /// Devices counted from 1.
    FromOne,
    /// The rest that the caller leaves by 5 looked at.
    ByFive,
    /// The last byte of the caller looked at.
    LastByte,
    /// The last two bytes of the caller looked at.
    LastTwoBytes,
    /// Caller 5 is a device without events.
    Caller5,
    /// Any caller above 4 is a device without events.
    NoNineteen,
    /// 4 for a caller above 4.
    FourForCaller,
    /// 19 before 10.
    NineteenBeforeTen,
    /// 19 after 1 to 8 and 14.
    NineteenAfterReading,
    /// 19 after 15.
    NineteenAfterFit,
    /// 19 with the scratch as it was.
    NineteenDirtyScratch,
    /// 19 with the first byte of the output changed.
    NineteenTouches,
    /// 20 with the record's length.
    TwentyLength,
    /// 20 for event 0 before the record is read.
    TwentyFirst,
    /// 20 before 15.
    TwentyBeforeFit,
    /// 20 for another's event after 13.
    TwentyAfterInside,
    /// 20 for another's event after 13 and 18.
    TwentyLast,
    /// 18 before 20 where the caller's count stands at 65,535.
    FullBeforeTwenty,
    /// 11 in place of 20.
    Eleven,
    /// 11 where there is no such event.
    ElevenForNone,
    /// 11 for another's event.
    ElevenForAnothers,
    /// 13 for another's event.
    ThirteenForAnothers,
    /// 18 by the count of the device after the caller.
    FullNext,
    /// 18 where the count of event 1's device stands at 65,535, too.
    FullFirst,
    /// 13 where the window closes at the horizon, too.
    HorizonOutside,
    /// 13 where the window meets that of another device's committed event, too.
    MetOutside,
}

pub const CALL_FAULTS: [CallFault; 35] = [
    CallFault::Ignored,
    CallFault::AnyDevice,
    CallFault::IgnoredByDoor,
    CallFault::DatabaseAll,
    CallFault::CameraAll,
    CallFault::DatabasesByAll,
    CallFault::CommittedByAll,
    CallFault::SameByAll,
    CallFault::NextOwner,
    CallFault::FromOne,
    CallFault::ByFive,
    CallFault::LastByte,
    CallFault::LastTwoBytes,
    CallFault::Caller5,
    CallFault::NoNineteen,
    CallFault::FourForCaller,
    CallFault::NineteenBeforeTen,
    CallFault::NineteenAfterReading,
    CallFault::NineteenAfterFit,
    CallFault::NineteenDirtyScratch,
    CallFault::NineteenTouches,
    CallFault::TwentyLength,
    CallFault::TwentyFirst,
    CallFault::TwentyBeforeFit,
    CallFault::TwentyAfterInside,
    CallFault::TwentyLast,
    CallFault::FullBeforeTwenty,
    CallFault::Eleven,
    CallFault::ElevenForNone,
    CallFault::ElevenForAnothers,
    CallFault::ThirteenForAnothers,
    CallFault::FullNext,
    CallFault::FullFirst,
    CallFault::HorizonOutside,
    CallFault::MetOutside,
];

#[derive(Clone, Copy, Debug, PartialEq, Eq)]
pub enum ViewFault {
    /// All events for any caller.
    AllForAll,
    /// The database's own events for the database.
    DatabaseOwn,
    /// All events but its own for the database.
    DatabaseOthers,
    /// The database's events for any caller, too.
    DatabasesForAll,
    /// The events of the next device.
    NextDevice,
    /// Devices counted from 1.
    FromOne,
    /// Free events alone.
    FreeOnly,
    /// Committed events alone.
    CommittedOnly,
    /// The event after the caller's last, too.
    OneMore,
    /// The last event left out of a view of more than one.
    LastMissing,
    /// Event numbers fall.
    Falling,
    /// The window of the event before.
    AnothersWindow,
    /// The flag of the event before.
    AnothersFlag,
    /// Flags from the first on, one for each event that is shown.
    FirstFlags,
    /// Free windows planned anew.
    Afresh,
    /// The flag always 0.
    FlagCleared,
    /// The flag after the window.
    FlagLast,
    /// No flag: nine bytes for each event.
    NoFlags,
    /// The owner after each number.
    WithOwners,
    /// Events numbered from 0.
    NumbersFromZero,
    /// Events numbered by their place in the view.
    Renumbered,
    /// Numbers of two bytes.
    TwoByteNumbers,
    /// Close before open.
    CloseFirst,
    /// Upper bytes of open and close first.
    UpperBytesFirst,
    /// The width in place of the close.
    Widths,
    /// The number of all events as the count.
    CountOfAll,
    /// A count of one more.
    CountOneMore,
    /// A count of one byte.
    OneByteCount,
    /// The view's length in bytes as its count.
    CountOfBytes,
    /// Nothing written for a caller without events.
    EmptyUnwritten,
    /// Nothing written at all.
    Silent,
    /// The byte after the view changed.
    TouchesRest,
    /// The output cleared up to 402 bytes.
    Clears,
    /// The whole output cleared.
    ClearsAll,
    /// The first byte changed on a refusal.
    TouchesOnRefusal,
    /// The count written before 15 is found.
    CountOnFifteen,
    /// Windows that are not fit shown.
    UnfitShown,
    /// 15 only where a rule of the caller's own events is broken.
    OwnFifteen,
    /// 20 for a caller without events.
    TwentyForNone,
    /// 10 after 19.
    ShortAfterCaller,
    /// 10 after 1 to 8 and 14.
    ShortAfterReading,
    /// 10 after 15.
    ShortLast,
    /// 19 after 1 to 8 and 14.
    NineteenAfterReading,
    /// 19 after 15.
    NineteenAfterFit,
    /// 4 for a caller above 4.
    FourForCaller,
    /// The last byte of the caller looked at.
    LastByte,
    /// The rest that the caller leaves by 5 looked at.
    ByFive,
    /// Caller 5 sees no event.
    Caller5,
    /// Any caller above 4 sees no event.
    AnyCaller,
    /// Any output that holds the view is enough.
    FitsOutput,
    /// 401 bytes are enough.
    Least401,
    /// 403 bytes are needed.
    Least403,
    /// As many bytes are enough as for a part.
    LeastOfPart,
    /// As many bytes are needed as for a record.
    LeastOfRecord,
    /// Bytes after the end not noticed.
    BytesAfter,
    /// No event shown where another device's count stands at 65,535.
    ByAnothersCount,
    /// The greatest number in place of a close at the horizon.
    ByHorizon,
}

pub const VIEW_FAULTS: [ViewFault; 57] = [
    ViewFault::AllForAll,
    ViewFault::DatabaseOwn,
    ViewFault::DatabaseOthers,
    ViewFault::DatabasesForAll,
    ViewFault::NextDevice,
    ViewFault::FromOne,
    ViewFault::FreeOnly,
    ViewFault::CommittedOnly,
    ViewFault::OneMore,
    ViewFault::LastMissing,
    ViewFault::Falling,
    ViewFault::AnothersWindow,
    ViewFault::AnothersFlag,
    ViewFault::FirstFlags,
    ViewFault::Afresh,
    ViewFault::FlagCleared,
    ViewFault::FlagLast,
    ViewFault::NoFlags,
    ViewFault::WithOwners,
    ViewFault::NumbersFromZero,
    ViewFault::Renumbered,
    ViewFault::TwoByteNumbers,
    ViewFault::CloseFirst,
    ViewFault::UpperBytesFirst,
    ViewFault::Widths,
    ViewFault::CountOfAll,
    ViewFault::CountOneMore,
    ViewFault::OneByteCount,
    ViewFault::CountOfBytes,
    ViewFault::EmptyUnwritten,
    ViewFault::Silent,
    ViewFault::TouchesRest,
    ViewFault::Clears,
    ViewFault::ClearsAll,
    ViewFault::TouchesOnRefusal,
    ViewFault::CountOnFifteen,
    ViewFault::UnfitShown,
    ViewFault::OwnFifteen,
    ViewFault::TwentyForNone,
    ViewFault::ShortAfterCaller,
    ViewFault::ShortAfterReading,
    ViewFault::ShortLast,
    ViewFault::NineteenAfterReading,
    ViewFault::NineteenAfterFit,
    ViewFault::FourForCaller,
    ViewFault::LastByte,
    ViewFault::ByFive,
    ViewFault::Caller5,
    ViewFault::AnyCaller,
    ViewFault::FitsOutput,
    ViewFault::Least401,
    ViewFault::Least403,
    ViewFault::LeastOfPart,
    ViewFault::LeastOfRecord,
    ViewFault::BytesAfter,
    ViewFault::ByAnothersCount,
    ViewFault::ByHorizon,
];

/// The number that the record is refused under, whichever device calls: 1 to 8, 14 or 15.
fn record_number(bytes: &[u8]) -> Option<u32> {
    let none = Commitment { caller: 0, event: 0, open: 0, close: 0 };
    library::committed(bytes, none).err().filter(|&number| number != 20)
}

/// The caller as the fault reads it.
fn caller_of(fault: CallFault, caller: u32) -> u32 {
    match fault {
        CallFault::FromOne => caller.wrapping_sub(1),
        CallFault::ByFive => caller % 5,
        CallFault::LastByte => caller % 256,
        CallFault::LastTwoBytes => caller % 65_536,
        _ => caller,
    }
}

/// Whether the fault has this device commit an event of another's.
fn stands_in(fault: CallFault, record: &Record, commitment: Commitment, owner: u32) -> bool {
    let place = commitment.event as usize - 1;
    match fault {
        CallFault::AnyDevice => true,
        CallFault::DatabaseAll => commitment.caller == DATABASE as u32,
        CallFault::CameraAll => commitment.caller == 0,
        CallFault::DatabasesByAll => owner == DATABASE as u32,
        CallFault::CommittedByAll => record.committed[place],
        CallFault::SameByAll => record.windows[place] == Window { open: commitment.open, close: commitment.close },
        _ => false,
    }
}

/// The number that the fault gives to a caller above 4.
fn above(fault: CallFault, bytes: &[u8], caller: u32) -> u32 {
    match fault {
        CallFault::Caller5 if caller == 5 => record_number(bytes).unwrap_or(20),
        CallFault::NoNineteen => record_number(bytes).unwrap_or(20),
        CallFault::FourForCaller => 4,
        CallFault::NineteenAfterReading => reading::record(bytes).err().unwrap_or(19),
        CallFault::NineteenAfterFit => record_number(bytes).unwrap_or(19),
        _ => 19,
    }
}

/// Whether this device's count stands at 65,535; not if there is none.
fn is_full(record: &Record, device: Option<u32>) -> bool {
    device.is_some_and(|device| record.counts[device as usize] == MOST_ACCEPTED)
}

/// What the fault makes of a commitment that is refused with 20. `by_owner` is what the event's owner is answered.
fn refused(fault: CallFault, record: &Record, commitment: Commitment, by_owner: impl Fn() -> Outcome) -> Outcome {
    let number = match (fault, record.owner(commitment.event)) {
        (CallFault::Eleven, _) | (CallFault::ElevenForNone, None) | (CallFault::ElevenForAnothers, Some(_)) => 11,
        (CallFault::ThirteenForAnothers, Some(_)) => 13,
        (CallFault::FullBeforeTwenty, _) if is_full(record, Some(commitment.caller)) => 18,
        (CallFault::TwentyAfterInside, Some(_)) => by_owner().err().filter(|&number| number == 13).unwrap_or(20),
        (CallFault::TwentyLast, Some(_)) => by_owner().err().unwrap_or(20),
        (_, Some(owner)) if stands_in(fault, record, commitment, owner) => return by_owner(),
        _ => 20,
    };
    Err(number)
}

/// Whether the fault has a commitment of an event of the caller's own refused with 13 that is refused with 18 or accepted.
fn is_outside(fault: CallFault, record: &Record, commitment: Commitment) -> bool {
    let Commitment { caller, open, close, .. } = commitment;
    let anothers = |k: usize| record.committed[k] && record.ticket.owners[k] as u32 != caller;
    let meets = |k: usize| record.windows[k].open <= close && open <= record.windows[k].close;
    match fault {
        CallFault::HorizonOutside => close == record.ticket.horizon,
        CallFault::MetOutside => (0..record.windows.len()).any(|k| anothers(k) && meets(k)),
        _ => false,
    }
}

/// The commitment where 18 goes by the count of the next device; the caller's own stays at 65,535.
fn full_next(mut record: Record, commitment: Commitment) -> Outcome {
    let owner = commitment.caller as usize;
    let count = record.counts[owner];
    record.counts[owner] = count.min(MOST_ACCEPTED - 1);
    let (mut after, total) = library::committed(&writing::record(&record), commitment)?;
    if record.counts[(owner + 1) % DEVICES] == MOST_ACCEPTED {
        return Err(18);
    }
    after.counts[owner] = (count + 1).min(MOST_ACCEPTED);
    Ok((after, total))
}

fn committed(fault: CallFault, bytes: &[u8], asked: Commitment) -> Outcome {
    let read = reading::record(bytes);
    let owner = read.as_ref().ok().and_then(|record| record.owner(asked.event));
    let by_owner = || library::committed(bytes, Commitment { caller: owner.unwrap_or(0), ..asked });
    let commitment = Commitment { caller: caller_of(fault, asked.caller), ..asked };
    match fault {
        CallFault::Ignored => return by_owner(),
        _ if commitment.caller > 4 => return Err(above(fault, bytes, commitment.caller)),
        CallFault::TwentyFirst if asked.event == 0 => return Err(20),
        CallFault::TwentyBeforeFit if read.is_ok() && owner != Some(asked.caller) => return Err(20),
        _ => {}
    }
    let outcome = library::committed(bytes, commitment);
    let record = read?;
    match outcome {
        Err(15) => Err(15),
        _ if fault == CallFault::NextOwner && owner.is_some() => {
            let next = asked.event % record.windows.len() as u32 + 1;
            if record.owner(next) == Some(asked.caller) {
                by_owner()
            } else {
                Err(20)
            }
        }
        Err(20) => refused(fault, &record, commitment, by_owner),
        Ok(_) | Err(18) if fault == CallFault::FullNext => full_next(record, commitment),
        Ok(_) | Err(18) if is_outside(fault, &record, commitment) => Err(13),
        Ok(_) if fault == CallFault::FullFirst && is_full(&record, record.owner(1)) => Err(18),
        _ => outcome,
    }
}

/// The answer to a commitment with this fault.
pub fn commit(fault: CallFault, bytes: &[u8], asked: Commitment, out: &mut [u8], scratch: &mut [u32]) -> Answer {
    let before = scratch.to_vec();
    let mut answer = calls::deliver(|| committed(fault, bytes, asked), out, scratch);
    match (fault, answer.number) {
        (CallFault::NineteenBeforeTen, 10) if asked.caller > 4 => answer.number = 19,
        (CallFault::NineteenDirtyScratch, 19) => scratch.copy_from_slice(&before),
        (CallFault::NineteenTouches, 19) => out[0] ^= 1,
        (CallFault::TwentyLength, 20) => answer.length = bytes.len() as u32,
        _ => {}
    }
    answer
}

/// The number of a commitment by the C door with this fault.
pub fn commit_door(fault: CallFault, bytes: &[u8], asked: Commitment, out: &mut [u8]) -> u32 {
    let fault = if fault == CallFault::IgnoredByDoor { CallFault::Ignored } else { fault };
    commit(fault, bytes, asked, out, &mut vec![0; calls::SCRATCH]).number
}

fn is_fit(record: &Record) -> bool {
    record_number(&writing::record(record)).is_none()
}

/// The record without the rules that have a point of another device's.
fn own_rules(record: &Record, caller: u32) -> Record {
    let mut own = record.clone();
    let is_own = |point: u8| point == 0 || record.owner(point as u32) == Some(caller);
    own.ticket.rules.retain(|&Rule { from, to, .. }| is_own(from) && is_own(to));
    own
}

/// The bytes of a record that others follow.
fn record_prefix(bytes: &[u8]) -> &[u8] {
    let n = bytes[4] as usize;
    let rules = bytes[6 + n] as usize + 256 * bytes[7 + n] as usize;
    &bytes[..22 + 10 * n + 6 * rules]
}

/// The caller as the fault of a view reads it.
fn viewer_of(fault: ViewFault, caller: u32) -> u32 {
    match fault {
        ViewFault::NextDevice if caller < 5 => (caller + 1) % 5,
        ViewFault::FromOne => caller.wrapping_sub(1),
        ViewFault::ByFive => caller % 5,
        ViewFault::LastByte => caller % 256,
        _ => caller,
    }
}

/// The events that the fault shows.
fn events(fault: ViewFault, record: &Record, caller: u32) -> Vec<usize> {
    let all = caller == DATABASE as u32;
    let is_shown = |&event: &usize| {
        let owner = record.ticket.owners[event - 1];
        match fault {
            ViewFault::AllForAll => true,
            ViewFault::DatabaseOwn => owner as u32 == caller,
            ViewFault::DatabaseOthers if all => owner != DATABASE,
            ViewFault::DatabasesForAll => all || owner as u32 == caller || owner == DATABASE,
            ViewFault::FreeOnly if record.committed[event - 1] => false,
            ViewFault::CommittedOnly if !record.committed[event - 1] => false,
            _ => all || owner as u32 == caller,
        }
    };
    let mut events: Vec<usize> = (1..=record.windows.len()).filter(is_shown).collect();
    let full = |device: usize| device as u32 != caller && record.counts[device] == MOST_ACCEPTED;
    match (fault, events.last()) {
        (ViewFault::OneMore, Some(&last)) if last < record.windows.len() => events.push(last + 1),
        (ViewFault::LastMissing, _) if events.len() > 1 => events.truncate(events.len() - 1),
        (ViewFault::Falling, _) => events.reverse(),
        (ViewFault::ByAnothersCount, _) if (0..DEVICES).any(full) => events.clear(),
        _ => {}
    }
    events
}

/// Number, flag, open and close of an event as the fault writes them. `place` is its place in the view, from 0.
fn fields(fault: ViewFault, record: &Record, place: usize, event: usize) -> Vec<u8> {
    let before = if event == 1 { record.windows.len() } else { event - 1 };
    let number = match fault {
        ViewFault::NumbersFromZero => event - 1,
        ViewFault::Renumbered => place + 1,
        _ => event,
    };
    let flag = match fault {
        ViewFault::AnothersFlag => record.committed[before - 1],
        ViewFault::FirstFlags => record.committed[place],
        ViewFault::FlagCleared => false,
        _ => record.committed[event - 1],
    };
    let Window { open, close } = record.windows[if fault == ViewFault::AnothersWindow { before } else { event } - 1];
    let (first, second) = match fault {
        ViewFault::CloseFirst => (close, open),
        ViewFault::UpperBytesFirst => (open.swap_bytes(), close.swap_bytes()),
        ViewFault::Widths => (open, close - open),
        ViewFault::ByHorizon if close == record.ticket.horizon => (open, u32::MAX),
        _ => (open, close),
    };
    let (number, flag) = ([number as u8], [flag as u8]);
    let window = [first.to_le_bytes(), second.to_le_bytes()].concat();
    match fault {
        ViewFault::FlagLast => [&number[..], &window, &flag].concat(),
        ViewFault::NoFlags => [&number[..], &window].concat(),
        ViewFault::WithOwners => [&number[..], &[record.ticket.owners[event - 1]], &flag, &window].concat(),
        ViewFault::TwoByteNumbers => [&number[..], &[0], &flag, &window].concat(),
        _ => [&number[..], &flag, &window].concat(),
    }
}

/// The view of these events as the fault writes it.
fn written(fault: ViewFault, record: &Record, events: &[usize]) -> Vec<u8> {
    let count = match fault {
        ViewFault::CountOfAll => record.windows.len(),
        ViewFault::CountOneMore => events.len() + 1,
        ViewFault::CountOfBytes => 2 + 10 * events.len(),
        ViewFault::EmptyUnwritten if events.is_empty() => return Vec::new(),
        _ => events.len(),
    };
    let mut bytes = (count as u16).to_le_bytes().to_vec();
    if fault == ViewFault::OneByteCount {
        bytes.pop();
    }
    bytes.extend(events.iter().enumerate().flat_map(|(place, &event)| fields(fault, record, place, event)));
    bytes
}

/// What the fault writes, or the number that it gives; the output is long enough.
fn shown(fault: ViewFault, bytes: &[u8], caller: u32) -> Result<Vec<u8>, u32> {
    let viewer = viewer_of(fault, caller);
    let above = viewer > 4;
    match fault {
        _ if !above => {}
        ViewFault::AnyCaller | ViewFault::NineteenAfterReading | ViewFault::NineteenAfterFit => {}
        ViewFault::Caller5 if caller == 5 => {}
        ViewFault::FourForCaller => return Err(4),
        _ => return Err(19),
    }
    let mut record = match (fault, reading::record(bytes)) {
        (ViewFault::BytesAfter, Err(8)) => reading::record(record_prefix(bytes))?,
        (_, read) => read?,
    };
    if fault == ViewFault::NineteenAfterReading && above {
        return Err(19);
    }
    let fits = match fault {
        ViewFault::UnfitShown => true,
        ViewFault::OwnFifteen => is_fit(&own_rules(&record, caller)),
        _ => is_fit(&record),
    };
    if !fits {
        return Err(15);
    }
    if fault == ViewFault::NineteenAfterFit && above {
        return Err(19);
    }
    if fault == ViewFault::Afresh {
        record = afresh(record).0;
    }
    let events = events(fault, &record, viewer);
    if fault == ViewFault::TwentyForNone && events.is_empty() {
        return Err(20);
    }
    Ok(written(fault, &record, &events))
}

/// Whether the fault takes an output of this length for too short; what is written has to fit in any case.
fn is_short(fault: ViewFault, view: &Result<Vec<u8>, u32>, length: usize) -> bool {
    let written = view.as_ref().map_or(0, Vec::len);
    let least = match fault {
        ViewFault::FitsOutput => written,
        ViewFault::Least401 => calls::VIEW - 1,
        ViewFault::Least403 => calls::VIEW + 1,
        ViewFault::LeastOfPart => calls::PART,
        ViewFault::LeastOfRecord => calls::RECORD,
        _ => calls::VIEW,
    };
    length < least || length < written
}

/// The number of a view with this fault.
pub fn view(fault: ViewFault, bytes: &[u8], caller: u32, out: &mut [u8]) -> u32 {
    let view = shown(fault, bytes, caller);
    let number = match (fault, &view) {
        (ViewFault::ShortAfterCaller, Err(19)) => 19,
        (ViewFault::ShortAfterReading, Err(number)) if *number != 15 => *number,
        (ViewFault::ShortLast, Err(number)) => *number,
        _ if is_short(fault, &view, out.len()) => 10,
        (_, Err(number)) => *number,
        (_, Ok(_)) => 0,
    };
    match (fault, view) {
        (ViewFault::TouchesOnRefusal, _) if number != 0 => out.iter_mut().take(1).for_each(|byte| *byte ^= 1),
        (ViewFault::CountOnFifteen, _) if number == 15 => out[..2].fill(0),
        (ViewFault::Silent, _) => {}
        (_, Ok(view)) if number == 0 => {
            match fault {
                ViewFault::Clears => out[..calls::VIEW].fill(0),
                ViewFault::ClearsAll => out.fill(0),
                _ => {}
            }
            out[..view.len()].copy_from_slice(&view);
            if fault == ViewFault::TouchesRest {
                out.get_mut(view.len()).into_iter().for_each(|byte| *byte ^= 1);
            }
        }
        _ => {}
    }
    number
}
