//! The call for a table after some stops with one planted fault.

use crate::faults::ticket_prefix;
use crate::model::stops::{self, Sums, NO_PATH};
use crate::model::{calls, distances, reading, Solver, Ticket};

#[derive(Clone, Copy, Debug, PartialEq, Eq)]
pub enum StopFault {
    /// Events taken from 1 up to n.
    Upwards,
    /// Session start taken before the events.
    StartFirst,
    /// One stop more than asked for.
    OneMore,
    /// One stop fewer than asked for, but for all of them.
    OneFewer,
    /// The middle event is no stop.
    LeftOut,
    /// The finished table for every number of stops.
    Finished,
    /// The last byte of the number of stops taken for it.
    LastByte,
    /// A number above that of the stops refused.
    RefusesMore,
    /// 9 only where the stops taken close a ring.
    LateNine,
    /// 0 where there is no path.
    ZeroForNone,
    /// The horizon where there is no path.
    HorizonForNone,
    /// The horizon in place of entries above it.
    CutAtHorizon,
    /// Rules that are not written left out until session start is taken.
    UnwrittenLate,
    /// Rows of 41 places for any number of events.
    WideRows,
    /// The output after the table is cleared.
    ClearsRest,
    /// 10 only where the bytes are a ticket.
    ShortLast,
    /// Owners not looked at.
    AnyOwner,
    /// Bytes after the end not noticed.
    BytesAfter,
}

pub const STOP_FAULTS: [StopFault; 18] = [
    StopFault::Upwards,
    StopFault::StartFirst,
    StopFault::OneMore,
    StopFault::OneFewer,
    StopFault::LeftOut,
    StopFault::Finished,
    StopFault::LastByte,
    StopFault::RefusesMore,
    StopFault::LateNine,
    StopFault::ZeroForNone,
    StopFault::HorizonForNone,
    StopFault::CutAtHorizon,
    StopFault::UnwrittenLate,
    StopFault::WideRows,
    StopFault::ClearsRest,
    StopFault::ShortLast,
    StopFault::AnyOwner,
    StopFault::BytesAfter,
];

/// The ticket as the fault reads it.
fn read(fault: StopFault, bytes: &[u8]) -> Result<Ticket, u32> {
    match fault {
        StopFault::AnyOwner => {
            let mut mended = bytes.to_vec();
            let events = bytes.get(4).map_or(0, |&events| events as usize);
            mended.iter_mut().skip(6).take(events).for_each(|owner| *owner = 0);
            reading::ticket(&mended)
        }
        StopFault::BytesAfter => reading::ticket(ticket_prefix(bytes)),
        _ => reading::ticket(bytes),
    }
}

/// The points that the fault takes as stops.
fn taken(fault: StopFault, events: usize, count: u32) -> Vec<bool> {
    let count = match fault {
        StopFault::OneMore => count.saturating_add(1),
        StopFault::OneFewer if count as usize <= events => count.saturating_sub(1),
        StopFault::Finished => u32::MAX,
        StopFault::LastByte => count & 255,
        _ => count,
    };
    let mut is_stop = stops::taken(events, count);
    match fault {
        StopFault::Upwards => is_stop[1..].reverse(),
        StopFault::StartFirst => is_stop.rotate_right(1),
        StopFault::LeftOut if events > 0 => is_stop[(events + 1) / 2] = false,
        _ => {}
    }
    is_stop
}

/// The sums that the fault finds; none for 9.
fn sums(fault: StopFault, ticket: &Ticket, count: u32) -> Option<Sums> {
    let is_stop = taken(fault, ticket.events(), count);
    let mut rules = ticket.all_rules();
    if fault == StopFault::UnwrittenLate && !is_stop[0] {
        rules.truncate(ticket.rules.len());
    }
    let sums = stops::sums(&rules, &is_stop, Solver::Flow);
    let possible = match fault {
        StopFault::LateNine => (0..sums.len()).all(|point| sums[point][point] == Some(0)),
        StopFault::RefusesMore if count as usize > ticket.events() + 1 => false,
        _ => distances::has_schedule(ticket),
    };
    possible.then_some(sums)
}

/// The sum as the fault writes it.
fn entry(fault: StopFault, horizon: u32, sum: Option<i64>) -> i32 {
    match (fault, sum) {
        (StopFault::ZeroForNone, None) => 0,
        (StopFault::HorizonForNone, None) => horizon as i32,
        (_, None) => NO_PATH,
        (StopFault::CutAtHorizon, Some(sum)) => sum.min(horizon as i64) as i32,
        (_, Some(sum)) => sum as i32,
    }
}

/// The number of a table after this many stops with this fault.
pub fn table_after(fault: StopFault, bytes: &[u8], count: u32, out: &mut [i32]) -> u32 {
    let ticket = read(fault, bytes);
    let size = ticket.as_ref().map_or(0, Ticket::events) + 1;
    if let (StopFault::ShortLast, Err(number)) = (fault, &ticket) {
        return *number;
    }
    let before = out.to_vec();
    let number = calls::tabled(ticket, out, |ticket| {
        let entry = |sum| entry(fault, ticket.horizon, sum);
        Some(sums(fault, ticket, count)?.into_iter().flatten().map(entry).collect())
    });
    match fault {
        StopFault::WideRows if number == 0 => {
            let entries = out[..size * size].to_vec();
            out.copy_from_slice(&before);
            for (i, row) in entries.chunks(size).enumerate() {
                out[41 * i..41 * i + size].copy_from_slice(row);
            }
        }
        StopFault::ClearsRest if number == 0 => out[size * size..].fill(0),
        _ => {}
    }
    number
}
