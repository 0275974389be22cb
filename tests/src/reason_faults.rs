//! The call for reasons in words with one planted fault.

use crate::model::calls::{self, Asked};
use crate::model::rings::{self, Step};
use crate::model::{distances, reading, reason, Ticket, DEVICES};

#[derive(Clone, Copy, Debug, PartialEq, Eq)]
pub enum ReasonFault {
    /// A ring that is not the shortest, where there is one of a rule or two more.
    LongerRing,
    /// The ring started one rule after its lowest.
    StartsElsewhere,
    /// Of the shortest rings the last in order.
    LastInOrder,
    /// Of several rules from one point to another the tightest.
    Tightest,
    /// Bounds that sum to 0 taken for a ring.
    ZeroRing,
    /// Rules that are not written under each other's numbers.
    UnwrittenExchanged,
    /// Rules that are not written left out.
    UnwrittenForgotten,
    /// 17 for every ticket.
    Denied,
    /// A device's name looked up in the label list.
    DeviceFromLabels,
    /// A line of the point that a rule goes to where the one is due that it goes from.
    NextPoint,
    /// Bounds without their sign.
    Unsigned,
    /// A refusal with a length that is not 0.
    LengthOfRefusal,
    /// A byte after the text is cleared.
    TouchesRest,
    /// Any output that holds the text is enough.
    FitsOutput,
    /// The roster looked at before the ticket.
    RosterFirst,
    /// 16 tested after 17.
    ListsLast,
    /// The count of a list not looked at.
    ListCount,
    /// A name of no letter accepted.
    EmptyName,
    /// A name of 17 letters accepted.
    LongName,
    /// Bytes after z taken for letters.
    AfterZ,
    /// Bytes after the end of a list not noticed.
    BytesAfterList,
}

pub const REASON_FAULTS: [ReasonFault; 21] = [
    ReasonFault::LongerRing,
    ReasonFault::StartsElsewhere,
    ReasonFault::LastInOrder,
    ReasonFault::Tightest,
    ReasonFault::ZeroRing,
    ReasonFault::UnwrittenExchanged,
    ReasonFault::UnwrittenForgotten,
    ReasonFault::Denied,
    ReasonFault::DeviceFromLabels,
    ReasonFault::NextPoint,
    ReasonFault::Unsigned,
    ReasonFault::LengthOfRefusal,
    ReasonFault::TouchesRest,
    ReasonFault::FitsOutput,
    ReasonFault::RosterFirst,
    ReasonFault::ListsLast,
    ReasonFault::ListCount,
    ReasonFault::EmptyName,
    ReasonFault::LongName,
    ReasonFault::AfterZ,
    ReasonFault::BytesAfterList,
];

/// All rules by number, the unwritten ones of each event exchanged.
fn exchanged(ticket: &Ticket) -> Vec<Step> {
    let mut steps = rings::numbered(ticket);
    steps[ticket.rules.len()..].chunks_mut(2).for_each(|pair| pair.swap(0, 1));
    steps
}

/// Rules that are not the tightest of their pair are as good as none.
fn tightest(mut steps: Vec<Step>) -> Vec<Step> {
    let all = steps.clone();
    for step in &mut steps {
        if all.iter().any(|other| (other.from, other.to) == (step.from, step.to) && other.bound < step.bound) {
            step.bound = i32::MAX as i64;
        }
    }
    steps
}

/// The ring that the fault takes; none for 17.
fn ring(fault: ReasonFault, ticket: &Ticket) -> Option<Vec<usize>> {
    let points = ticket.events() + 1;
    let mut steps = match fault {
        ReasonFault::UnwrittenExchanged => exchanged(ticket),
        ReasonFault::Tightest => tightest(rings::numbered(ticket)),
        _ => rings::numbered(ticket),
    };
    match fault {
        ReasonFault::Denied => return None,
        ReasonFault::UnwrittenForgotten => steps.truncate(ticket.rules.len()),
        // A ring has fewer than 100 rules: it sums below 0 now if it summed to 0 or below.
        ReasonFault::ZeroRing => steps.iter_mut().for_each(|step| step.bound = 100 * step.bound - 1),
        _ => {}
    }
    let mut ring = rings::by_sums(points, &steps)?;
    let longer = ring.len() + 1..=ring.len() + 2;
    match fault {
        ReasonFault::LongerRing => {
            longer.into_iter().find_map(|length| rings::of_length(points, &steps, length)).or(Some(ring))
        }
        ReasonFault::LastInOrder if points <= 5 && steps.len() <= 20 => rings::shortest(points, &steps).pop(),
        ReasonFault::StartsElsewhere => {
            ring.rotate_left(1);
            Some(ring)
        }
        _ => Some(ring),
    }
}

/// The text of the ring as the fault words it.
fn text(fault: ReasonFault, ticket: &Ticket, ring: &[usize], labels: &[&[u8]], roster: &[&[u8]]) -> Vec<u8> {
    let mut steps = rings::numbered(ticket);
    match fault {
        ReasonFault::UnwrittenExchanged => steps = exchanged(ticket),
        ReasonFault::NextPoint => steps.iter_mut().for_each(|step| step.from = step.to),
        ReasonFault::Unsigned => steps.iter_mut().for_each(|step| step.bound = step.bound.abs()),
        _ => {}
    }
    let device = |owner: usize| match labels.get(owner) {
        Some(label) if fault == ReasonFault::DeviceFromLabels => *label,
        _ => roster[owner],
    };
    reason::text(ticket, &steps, ring, labels, &(0..DEVICES).map(device).collect::<Vec<_>>())
}

/// A list mended in what the fault overlooks.
fn mended(fault: ReasonFault, list: &[u8], count: usize) -> Vec<u8> {
    let mut list = list.to_vec();
    let at = |byte: u8| list.iter().skip(2).position(|&given| given == byte).map(|place| place + 2);
    match fault {
        ReasonFault::ListCount if list.len() >= 2 => list[..2].copy_from_slice(&(count as u16).to_le_bytes()),
        ReasonFault::EmptyName => {
            at(0).map(|place| list.splice(place..=place, *b"\x01a"));
        }
        ReasonFault::LongName => {
            at(17).filter(|place| place + 1 < list.len()).map(|place| list.splice(place..=place + 1, *b"\x10"));
        }
        ReasonFault::AfterZ => list.iter_mut().for_each(|byte| *byte = (*byte).min(b'z')),
        ReasonFault::BytesAfterList => {
            let good = (0..list.len()).find(|&length| reason::names(&list[..length], count).is_ok());
            list.truncate(good.unwrap_or(list.len()));
        }
        _ => {}
    }
    list
}

fn reasoned(fault: ReasonFault, asked: &Asked) -> Result<Vec<u8>, u32> {
    let roster = mended(fault, &asked.roster, DEVICES);
    let roster = reason::names(&roster, DEVICES);
    if fault == ReasonFault::RosterFirst && roster.is_err() {
        return Err(16);
    }
    let ticket = reading::ticket(&asked.ticket)?;
    if fault == ReasonFault::ListsLast && distances::has_schedule(&ticket) {
        return Err(17);
    }
    let labels = mended(fault, &asked.labels, ticket.events());
    let labels = reason::names(&labels, ticket.events())?;
    let roster = roster?;
    let ring = ring(fault, &ticket).ok_or(17u32)?;
    Ok(text(fault, &ticket, &ring, &labels, &roster))
}

/// Number and length of a reason with this fault.
pub fn reason(fault: ReasonFault, asked: &Asked, out: &mut [u8]) -> (u32, u32) {
    let reasoned = reasoned(fault, asked);
    let least = match &reasoned {
        Ok(text) if fault == ReasonFault::FitsOutput => text.len(),
        _ => calls::REASON,
    };
    let text = match reasoned {
        Ok(text) if out.len() >= least => text,
        reasoned => {
            let number = if out.len() < least { 10 } else { reasoned.err().unwrap_or(0) };
            return (number, if fault == ReasonFault::LengthOfRefusal { number } else { 0 });
        }
    };
    out[..text.len()].copy_from_slice(&text);
    if let Some(byte) = out.get_mut(text.len()).filter(|_| fault == ReasonFault::TouchesRest) {
        *byte = 0;
    }
    (0, text.len() as u32)
}
