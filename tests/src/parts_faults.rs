//! The call for a device's part, and the program's line of part totals, with one planted fault.

use crate::faults::ticket_prefix;
use crate::model::calls::{self, Outcome};
use crate::model::{distances, parts, reading, text, writing, Prefer, Rule, Solver, Ticket, Window};
use crate::model::{DATABASE, DEVICES};

#[derive(Clone, Copy, Debug, PartialEq, Eq)]
pub enum PartFault {
    /// The distance from the last event to the first left out.
    LeftOut,
    /// The distance from the first event to the last left out.
    OtherLeftOut,
    /// All distances among events left out, those to point 0 and from it kept.
    LimitsOnly,
    /// All distances to point 0 and from it left out, those among events kept.
    NoLimits,
    /// The first 256 distances alone.
    First256,
    /// Distances a tick too long.
    TickMore,
    /// The distance from j to i in place of that from i to j.
    Turned,
    /// The ticket's rules among the device's events and point 0 in place of the distances.
    TicketRules,
    /// The plan's windows of these events.
    WholePlan,
    /// The plan's windows where the events of all other devices count nothing.
    OthersNothing,
    /// The windows of the latest plan of the part.
    Latest,
    /// Earliest to latest of each event as its window.
    EarliestToLatest,
    /// The weight of the next device.
    NextWeight,
    /// The weight of an event's number as a device, in place of the device's.
    WeightOfEvent,
    /// A tick of the database counts 1.
    DatabaseOne,
    /// The next device's part.
    NextDevice,
    /// Devices counted from 1.
    FromOne,
    /// A part of all events, with the plan's windows.
    AllEvents,
    /// The event after the device's last in it, too, with the plan's window.
    OneMore,
    /// The device's last event left out of a part of more than one.
    LastMissing,
    /// Event numbers fall.
    Falling,
    /// Events numbered from 0.
    FromZero,
    /// Events numbered by their place in the part.
    Renumbered,
    /// Numbers of two bytes.
    TwoByteNumbers,
    /// A flag before each window, as in the record.
    WithFlags,
    /// The owner after each number.
    WithOwners,
    /// Close before open.
    CloseFirst,
    /// Upper bytes of open and close first.
    UpperBytesFirst,
    /// The width in place of the close.
    Widths,
    /// The number of all events as the count.
    CountOfAll,
    /// A count of one more.
    CountOneMore,
    /// A count of one byte.
    OneByteCount,
    /// The part's length in bytes as its count.
    CountOfBytes,
    /// Nothing written for a device without events.
    EmptyUnwritten,
    /// Nothing written at all.
    Silent,
    /// The byte after the part changed.
    TouchesRest,
    /// The output cleared up to 362 bytes.
    Clears,
    /// The whole output cleared.
    ClearsAll,
    /// The first byte changed on a refusal.
    TouchesOnRefusal,
    /// The count written before 9 is found.
    CountOnNine,
    /// 10 after the device is looked at.
    ShortAfterDevice,
    /// 10 after 1 to 8.
    ShortAfterReading,
    /// 10 after 9.
    ShortLast,
    /// The device looked at after 1 to 8.
    DeviceAfterReading,
    /// The device looked at after 9.
    DeviceLast,
    /// 9 before 8, where an impossible ticket has bytes after its end.
    NineFirst,
    /// Malformed tickets refused with 9.
    NineForMalformed,
    /// 9 for a device without events.
    NineForNone,
    /// A part of no event where there is no schedule and the device has none.
    EmptyForImpossible,
    /// 9 only where the rules of the device's own events leave no schedule.
    OwnNine,
    /// 3 for a device above 4.
    AnotherNumber,
    /// The last byte of the device looked at.
    LastByte,
    /// Device 5 has a part of no event.
    Device5,
    /// Any device above 4 has a part of no event.
    AnyDevice,
    /// Any output that holds the part is enough.
    FitsOutput,
    /// 361 bytes are enough.
    Least361,
    /// 363 bytes are needed.
    Least363,
    /// As many bytes are needed as for a record.
    LeastOfRecord,
    /// Bytes after the end not noticed.
    BytesAfter,
}

pub const PART_FAULTS: [PartFault; 59] = [
    PartFault::LeftOut,
    PartFault::OtherLeftOut,
    PartFault::LimitsOnly,
    PartFault::NoLimits,
    PartFault::First256,
    PartFault::TickMore,
    PartFault::Turned,
    PartFault::TicketRules,
    PartFault::WholePlan,
    PartFault::OthersNothing,
    PartFault::Latest,
    PartFault::EarliestToLatest,
    PartFault::NextWeight,
    PartFault::WeightOfEvent,
    PartFault::DatabaseOne,
    PartFault::NextDevice,
    PartFault::FromOne,
    PartFault::AllEvents,
    PartFault::OneMore,
    PartFault::LastMissing,
    PartFault::Falling,
    PartFault::FromZero,
    PartFault::Renumbered,
    PartFault::TwoByteNumbers,
    PartFault::WithFlags,
    PartFault::WithOwners,
    PartFault::CloseFirst,
    PartFault::UpperBytesFirst,
    PartFault::Widths,
    PartFault::CountOfAll,
    PartFault::CountOneMore,
    PartFault::OneByteCount,
    PartFault::CountOfBytes,
    PartFault::EmptyUnwritten,
    PartFault::Silent,
    PartFault::TouchesRest,
    PartFault::Clears,
    PartFault::ClearsAll,
    PartFault::TouchesOnRefusal,
    PartFault::CountOnNine,
    PartFault::ShortAfterDevice,
    PartFault::ShortAfterReading,
    PartFault::ShortLast,
    PartFault::DeviceAfterReading,
    PartFault::DeviceLast,
    PartFault::NineFirst,
    PartFault::NineForMalformed,
    PartFault::NineForNone,
    PartFault::EmptyForImpossible,
    PartFault::OwnNine,
    PartFault::AnotherNumber,
    PartFault::LastByte,
    PartFault::Device5,
    PartFault::AnyDevice,
    PartFault::FitsOutput,
    PartFault::Least361,
    PartFault::Least363,
    PartFault::LeastOfRecord,
    PartFault::BytesAfter,
];

#[derive(Clone, Copy, Debug, PartialEq, Eq)]
pub enum LineFault {
    /// No line.
    Missing,
    /// No line where there is no event.
    MissingForNone,
    /// No line below the latest plan.
    MissingForLatest,
    /// A line below a refusal, too.
    BelowRefusals,
    /// The line above the plan's lines.
    Above,
    /// The database's total left out.
    FourTotals,
    /// The sum after the five totals.
    SumToo,
    /// The totals of devices with events alone.
    OwnersOnly,
    /// The totals in the reverse order.
    Reversed,
    /// Each tick counts 1.
    Unweighted,
    /// A tick of the database counts 1.
    DatabaseOne,
    /// Each device's share of the plan's total.
    Shares,
    /// The totals of parts planned with the ticket's rules.
    TicketRules,
    /// The totals of earliest to latest.
    EarliestToLatest,
    /// A space after the last total.
    SpaceAtTheEnd,
    /// Two spaces between totals.
    TwoSpaces,
    /// Each total on a line of its own.
    Lines,
    /// A word before the totals.
    Word,
    /// No line end.
    NoEnd,
    /// An empty line before it.
    EmptyLine,
}

pub const LINE_FAULTS: [LineFault; 20] = [
    LineFault::Missing,
    LineFault::MissingForNone,
    LineFault::MissingForLatest,
    LineFault::BelowRefusals,
    LineFault::Above,
    LineFault::FourTotals,
    LineFault::SumToo,
    LineFault::OwnersOnly,
    LineFault::Reversed,
    LineFault::Unweighted,
    LineFault::DatabaseOne,
    LineFault::Shares,
    LineFault::TicketRules,
    LineFault::EarliestToLatest,
    LineFault::SpaceAtTheEnd,
    LineFault::TwoSpaces,
    LineFault::Lines,
    LineFault::Word,
    LineFault::NoEnd,
    LineFault::EmptyLine,
];

const WHEEL: u8 = 1;

/// The ticket's rules among these events and point 0, numbered by their places.
fn rules_among(ticket: &Ticket, events: &[usize]) -> Vec<Rule> {
    let place = |point: u8| match point {
        0 => Some(0),
        _ => events.iter().position(|&event| event == point as usize).map(|place| place as u8 + 1),
    };
    let rules = ticket.rules.iter();
    rules.filter_map(|r| Some(Rule { from: place(r.from)?, to: place(r.to)?, bound: r.bound })).collect()
}

/// The part as a ticket, as the fault makes it.
fn network(fault: PartFault, ticket: &Ticket, device: u8, table: &Vec<Vec<i64>>) -> Ticket {
    let mut part = parts::projected(ticket, device, table);
    let last = part.events() as u8;
    match fault {
        PartFault::LeftOut => part.rules.retain(|rule| rule.from != last || rule.to != 1),
        PartFault::OtherLeftOut => part.rules.retain(|rule| rule.from != 1 || rule.to != last),
        PartFault::LimitsOnly => part.rules.retain(|rule| rule.from == 0 || rule.to == 0),
        PartFault::NoLimits => part.rules.retain(|rule| rule.from != 0 && rule.to != 0),
        PartFault::First256 => part.rules.truncate(256),
        PartFault::TickMore => part.rules.iter_mut().for_each(|rule| rule.bound += 1),
        PartFault::Turned => {
            part.rules.iter_mut().for_each(|rule| *rule = Rule { from: rule.to, to: rule.from, ..*rule })
        }
        PartFault::TicketRules => part.rules = rules_among(ticket, &parts::events(ticket, device)),
        PartFault::NextWeight => part.owners.fill((device + 1) % DEVICES as u8),
        PartFault::WeightOfEvent => {
            let owners = parts::events(ticket, device).into_iter().map(|event| (event % DEVICES) as u8);
            part.owners = owners.collect();
        }
        PartFault::DatabaseOne if device == DATABASE => part.owners.fill(WHEEL),
        _ => {}
    }
    part
}

/// The windows of the whole ticket's plan.
fn plan(ticket: &Ticket) -> Option<Vec<Window>> {
    ticket.best(&ticket.any_windows(), Prefer::Earliest, Solver::Flow)
}

fn at(windows: &[Window], events: &[usize]) -> Vec<Window> {
    events.iter().map(|&event| windows[event - 1]).collect()
}

/// The events that the fault puts into the part, and their windows.
fn planned(fault: PartFault, ticket: &Ticket, device: u8, table: &Vec<Vec<i64>>) -> Option<(Vec<usize>, Vec<Window>)> {
    let mut events = parts::events(ticket, device);
    let part = network(fault, ticket, device, table);
    let prefer = if fault == PartFault::Latest { Prefer::Latest } else { Prefer::Earliest };
    let mut windows = match fault {
        PartFault::WholePlan => at(&plan(ticket)?, &events),
        PartFault::OthersNothing => {
            let owner = |&owner: &u8| if owner == device { owner } else { DATABASE };
            let others = Ticket { owners: ticket.owners.iter().map(owner).collect(), ..ticket.clone() };
            at(&plan(&others)?, &events)
        }
        PartFault::EarliestToLatest => earliest_to_latest(table, &events),
        PartFault::AllEvents => {
            events = (1..=ticket.events()).collect();
            plan(ticket)?
        }
        // Distances that the fault has changed may leave no windows: then it answers 9.
        _ => part.best(&part.any_windows(), prefer, Solver::Flow)?,
    };
    match (fault, events.last()) {
        (PartFault::OneMore, Some(&last)) if last < ticket.events() => {
            events.push(last + 1);
            windows.push(plan(ticket)?[last]);
        }
        (PartFault::LastMissing, _) if events.len() > 1 => {
            events.pop();
            windows.pop();
        }
        (PartFault::Falling, _) => {
            events.reverse();
            windows.reverse();
        }
        _ => {}
    }
    Some((events, windows))
}

fn earliest_to_latest(table: &[Vec<i64>], events: &[usize]) -> Vec<Window> {
    events.iter().map(|&k| Window { open: -table[k][0] as u32, close: table[0][k] as u32 }).collect()
}

/// The part as the fault writes it.
fn written(fault: PartFault, ticket: &Ticket, events: &[usize], windows: &[Window]) -> Vec<u8> {
    let mut count = events.len() as u16;
    match fault {
        PartFault::CountOfAll => count = ticket.events() as u16,
        PartFault::CountOneMore => count += 1,
        PartFault::CountOfBytes => count = writing::part(events, windows).len() as u16,
        PartFault::EmptyUnwritten if events.is_empty() => return Vec::new(),
        _ => {}
    }
    let mut bytes = count.to_le_bytes().to_vec();
    if fault == PartFault::OneByteCount {
        bytes.pop();
    }
    for (place, (&event, window)) in events.iter().zip(windows).enumerate() {
        let number = match fault {
            PartFault::FromZero => event - 1,
            PartFault::Renumbered => place + 1,
            _ => event,
        };
        bytes.push(number as u8);
        match fault {
            PartFault::TwoByteNumbers | PartFault::WithFlags => bytes.push(0),
            PartFault::WithOwners => bytes.push(ticket.owners[event - 1]),
            _ => {}
        }
        let (first, second) = match fault {
            PartFault::CloseFirst => (window.close, window.open),
            PartFault::Widths => (window.open, window.close - window.open),
            PartFault::UpperBytesFirst => (window.open.swap_bytes(), window.close.swap_bytes()),
            _ => (window.open, window.close),
        };
        bytes.extend(first.to_le_bytes());
        bytes.extend(second.to_le_bytes());
    }
    bytes
}

/// The device as the fault reads it; none above 4.
fn device_of(fault: PartFault, device: u32) -> Option<u8> {
    let read = match fault {
        PartFault::LastByte => device & 255,
        PartFault::NextDevice if device < 5 => (device + 1) % 5,
        PartFault::FromOne => device.wrapping_sub(1),
        _ => device,
    };
    (read < 5).then_some(read as u8)
}

/// What the fault writes, or the number that it gives; the output is long enough.
fn parted(fault: PartFault, bytes: &[u8], device: u32) -> Result<Vec<u8>, u32> {
    let known = device_of(fault, device);
    match (fault, known) {
        (PartFault::DeviceAfterReading | PartFault::DeviceLast, _) => {}
        (PartFault::Device5, None) if device == 5 => {}
        (PartFault::AnyDevice, None) => {}
        (PartFault::AnotherNumber, None) => return Err(3),
        (_, None) => return Err(4),
        _ => {}
    }
    let prefix = ticket_prefix(bytes);
    let ticket = match (fault, reading::ticket(bytes)) {
        (PartFault::NineForMalformed, Err(_)) => return Err(9),
        (PartFault::BytesAfter, _) => reading::ticket(prefix)?,
        (PartFault::NineFirst, Err(8)) if reading::ticket(prefix).is_ok_and(|t| !distances::has_schedule(&t)) => {
            return Err(9);
        }
        (_, read) => read?,
    };
    if fault == PartFault::DeviceAfterReading && known.is_none() {
        return Err(4);
    }
    let events = known.map_or(Vec::new(), |device| parts::events(&ticket, device));
    let own = Ticket { owners: vec![0; events.len()], rules: rules_among(&ticket, &events), ..ticket };
    match fault {
        PartFault::NineForNone if events.is_empty() => return Err(9),
        PartFault::EmptyForImpossible if events.is_empty() => return Ok(vec![0, 0]),
        PartFault::OwnNine if !distances::has_schedule(&ticket) && distances::has_schedule(&own) => {
            let windows = plan(&own).ok_or(9u32)?;
            return Ok(writing::part(&events, &windows));
        }
        _ => {}
    }
    let table = parts::table(&ticket, Solver::Flow).ok_or(9u32)?;
    let Some(device) = known else {
        return if fault == PartFault::DeviceLast { Err(4) } else { Ok(vec![0, 0]) };
    };
    let (events, windows) = planned(fault, &ticket, device, &table).ok_or(9u32)?;
    Ok(written(fault, &ticket, &events, &windows))
}

/// Whether the fault takes an output of this length for too short; what is written has to fit in any case.
fn is_short(fault: PartFault, part: &Result<Vec<u8>, u32>, length: usize) -> bool {
    let written = part.as_ref().map_or(0, Vec::len);
    let least = match fault {
        PartFault::FitsOutput => written,
        PartFault::Least361 => 361,
        PartFault::Least363 => 363,
        PartFault::LeastOfRecord => calls::RECORD,
        _ => calls::PART,
    };
    length < least || length < written
}

/// The number of a part with this fault.
pub fn part(fault: PartFault, bytes: &[u8], device: u32, out: &mut [u8]) -> u32 {
    let part = parted(fault, bytes, device);
    let number = match (fault, &part) {
        (PartFault::ShortAfterDevice, Err(4)) if device > 4 => 4,
        (PartFault::ShortAfterReading, Err(number)) if *number != 9 => *number,
        (PartFault::ShortLast, Err(number)) => *number,
        _ if is_short(fault, &part, out.len()) => 10,
        (_, Err(number)) => *number,
        (_, Ok(_)) => 0,
    };
    match (fault, part) {
        (PartFault::TouchesOnRefusal, _) if number != 0 => out.iter_mut().take(1).for_each(|byte| *byte ^= 1),
        (PartFault::CountOnNine, _) if number == 9 => out.iter_mut().take(2).for_each(|byte| *byte = 0),
        (PartFault::Silent, _) => {}
        (_, Ok(part)) if number == 0 => {
            match fault {
                PartFault::Clears => out[..calls::PART].fill(0),
                PartFault::ClearsAll => out.fill(0),
                _ => {}
            }
            out[..part.len()].copy_from_slice(&part);
            if fault == PartFault::TouchesRest {
                out.get_mut(part.len()).into_iter().for_each(|byte| *byte ^= 1);
            }
        }
        _ => {}
    }
    number
}

/// The totals as the fault finds them.
fn totals(fault: LineFault, ticket: &Ticket, outcome: &Outcome) -> Vec<i64> {
    let Some(table) = parts::table(ticket, Solver::Flow) else { return Vec::new() };
    let total = |device: u8| {
        let events = parts::events(ticket, device);
        let mut part = parts::projected(ticket, device, &table);
        let mut windows = parts::windows(ticket, device, &table, Solver::Flow);
        match (fault, outcome) {
            (LineFault::Unweighted, _) => part.owners.fill(WHEEL),
            (LineFault::DatabaseOne, _) if device == DATABASE => {
                part.owners.fill(WHEEL);
                windows = part.best(&part.any_windows(), Prefer::Earliest, Solver::Flow).unwrap_or(windows);
            }
            (LineFault::Shares, Ok((record, _))) => windows = at(&record.windows, &events),
            (LineFault::EarliestToLatest, _) => windows = earliest_to_latest(&table, &events),
            (LineFault::TicketRules, _) => {
                part.rules = rules_among(ticket, &events);
                windows = part.best(&part.any_windows(), Prefer::Earliest, Solver::Flow).unwrap_or(windows);
            }
            _ => {}
        }
        part.total(&windows)
    };
    let mut totals: Vec<i64> = (0..DEVICES as u8).map(total).collect();
    match fault {
        LineFault::FourTotals => totals.truncate(4),
        LineFault::SumToo => totals.push(totals.iter().sum()),
        LineFault::OwnersOnly => {
            let owners = (0..).zip(totals).filter(|(device, _)| ticket.owners.contains(device));
            totals = owners.map(|(_, total)| total).collect();
        }
        LineFault::Reversed => totals.reverse(),
        _ => {}
    }
    totals
}

/// What the program prints with this fault.
pub fn printed(fault: LineFault, prefer: Prefer, outcome: &Outcome) -> String {
    let right = text::printed(outcome);
    let Ok((record, _)) = outcome else {
        return if fault == LineFault::BelowRefusals { right + "0 0 0 0 0\n" } else { right };
    };
    let (plan, line) = right.trim_end().rsplit_once('\n').unwrap_or(("", &right));
    let totals = text::totals_line(&totals(fault, &record.ticket, outcome));
    match fault {
        LineFault::Missing => format!("{plan}\n"),
        LineFault::MissingForNone if record.windows.is_empty() => format!("{plan}\n"),
        LineFault::MissingForLatest if prefer == Prefer::Latest => format!("{plan}\n"),
        LineFault::Above => format!("{line}\n{plan}\n"),
        LineFault::SpaceAtTheEnd => format!("{plan}\n{line} \n"),
        LineFault::TwoSpaces => format!("{plan}\n{}\n", line.replace(' ', "  ")),
        LineFault::Lines => format!("{plan}\n{}\n", line.replace(' ', "\n")),
        LineFault::Word => format!("{plan}\nparts {line}\n"),
        LineFault::NoEnd => format!("{plan}\n{line}"),
        LineFault::EmptyLine => format!("{plan}\n\n{line}\n"),
        _ => format!("{plan}\n{totals}"),
    }
}
