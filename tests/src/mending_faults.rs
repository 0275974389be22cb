//! Mending with one planted fault.

use crate::faults::ticket_prefix;
use crate::model::calls::{self, Mending};
use crate::model::{distances, reading, rings, writing, Rule, Solver, Ticket};

#[derive(Clone, Copy, Debug, PartialEq, Eq)]
pub enum MendingFault {
    /// The ticket comes out as it was.
    Echoes,
    /// All rules after the first dropped one are dropped.
    RestDropped,
    /// All rules after the first dropped one are kept.
    RestKept,
    /// A rule tested without those kept so far.
    Alone,
    /// A rule tested with those that follow it, too.
    WithLater,
    /// Rules walked from the last to the first.
    Backwards,
    /// Rules walked from the least bound to the greatest.
    ByBounds,
    /// All written rules of a ring dropped.
    WholeRings,
    /// As few rules dropped as possible, of tickets with few.
    Fewest,
    /// Rules dropped, too, that follow from those kept so far.
    Implied,
    /// A dropped rule goes on to bind later ones, as tightly as it can be kept.
    StillBinds,
    /// Bounds that sum to 0 taken for a ring.
    ZeroRing,
    /// The limit 0 forgotten.
    NoStart,
    /// The limit H forgotten.
    NoHorizon,
    /// 9 where there is no schedule.
    Nine,
    /// Kept rules in the reverse order.
    Reversed,
    /// Rules sorted by their points.
    Sorted,
    /// The number of all rules before the kept ones.
    CountsAll,
    /// Owners cleared.
    OwnersCleared,
    /// Rules numbered from 0.
    FromZero,
    /// Numbers fall.
    Falling,
    /// The numbers of the kept rules listed.
    ListsKept,
    /// A count of one byte.
    OneByteCount,
    /// Numbers of one byte.
    OneByteNumbers,
    /// The upper byte of each number first.
    UpperByteFirst,
    /// The list's length in bytes in place of its count.
    CountsBytes,
    /// The byte after the mended ticket changed.
    TouchesRest,
    /// The byte after the list changed.
    TouchesListRest,
    /// The output of the list cleared up to its least length.
    ClearsList,
    /// The first byte of the ticket's output changed on a refusal.
    TouchesOnRefusal,
    /// An empty list written on a refusal.
    ListsOnRefusal,
    /// 10 after 1 to 8.
    ShortLast,
    /// 10 only where both outputs are too short.
    BothShort,
    /// Any outputs that hold what is written are enough.
    FitsOutputs,
    /// The least lengths of the outputs exchanged.
    LeastExchanged,
    /// 1,583 bytes are enough for the ticket.
    Least1583,
    /// 513 bytes are enough for the list.
    Least513,
    /// 512 bytes are enough for the list.
    Least512,
    /// Bytes after the end not noticed.
    BytesAfter,
}

pub const MENDING_FAULTS: [MendingFault; 39] = [
    MendingFault::Echoes,
    MendingFault::RestDropped,
    MendingFault::RestKept,
    MendingFault::Alone,
    MendingFault::WithLater,
    MendingFault::Backwards,
    MendingFault::ByBounds,
    MendingFault::WholeRings,
    MendingFault::Fewest,
    MendingFault::Implied,
    MendingFault::StillBinds,
    MendingFault::ZeroRing,
    MendingFault::NoStart,
    MendingFault::NoHorizon,
    MendingFault::Nine,
    MendingFault::Reversed,
    MendingFault::Sorted,
    MendingFault::CountsAll,
    MendingFault::OwnersCleared,
    MendingFault::FromZero,
    MendingFault::Falling,
    MendingFault::ListsKept,
    MendingFault::OneByteCount,
    MendingFault::OneByteNumbers,
    MendingFault::UpperByteFirst,
    MendingFault::CountsBytes,
    MendingFault::TouchesRest,
    MendingFault::TouchesListRest,
    MendingFault::ClearsList,
    MendingFault::TouchesOnRefusal,
    MendingFault::ListsOnRefusal,
    MendingFault::ShortLast,
    MendingFault::BothShort,
    MendingFault::FitsOutputs,
    MendingFault::LeastExchanged,
    MendingFault::Least1583,
    MendingFault::Least513,
    MendingFault::Least512,
    MendingFault::BytesAfter,
];

/// Above every sum of a ring's bounds: a limit of so many ticks is as good as none.
const FAR: i64 = 1_000_000_000;

/// Whether the fault finds a schedule.
fn possible(fault: MendingFault, ticket: &Ticket) -> bool {
    let mut rules = ticket.all_rules();
    let limits = rules.iter_mut().skip(ticket.rules.len());
    match fault {
        MendingFault::NoStart => limits.filter(|limit| limit.1 == 0).for_each(|limit| limit.2 = FAR),
        MendingFault::NoHorizon => limits.filter(|limit| limit.0 == 0).for_each(|limit| limit.2 = FAR),
        // A ring has fewer than 100 rules: it sums below 0 now if it summed to 0 or below.
        MendingFault::ZeroRing => rules.iter_mut().for_each(|rule| rule.2 = 100 * rule.2 - 1),
        _ => {}
    }
    distances::shortest(ticket.events() + 1, &rules, 0).is_some()
}

/// The ticket with the rules at these places.
fn with(ticket: &Ticket, places: &[usize]) -> Ticket {
    Ticket { rules: places.iter().map(|&place| ticket.rules[place]).collect(), ..ticket.clone() }
}

/// The largest time of one point minus that of another.
fn distance(ticket: &Ticket, from: u8, to: u8) -> i64 {
    let lengths = distances::shortest(ticket.events() + 1, &ticket.all_rules(), from as usize);
    lengths.map_or(0, |lengths| lengths[to as usize])
}

/// The places of the rules that are kept when they are walked in this order.
fn walk(fault: MendingFault, ticket: &Ticket, order: &[usize]) -> Vec<usize> {
    let mut kept = Vec::new();
    let mut binding = with(ticket, &[]);
    for (step, &place) in order.iter().enumerate() {
        let rule = ticket.rules[place];
        let mut tested = binding.clone();
        match fault {
            MendingFault::Alone => tested.rules.clear(),
            MendingFault::WithLater => tested.rules = with(ticket, &[&kept, &order[step + 1..]].concat()).rules,
            _ => {}
        }
        tested.rules.push(rule);
        let has_dropped = kept.len() < step;
        let keeps = match fault {
            MendingFault::RestDropped if has_dropped => false,
            MendingFault::RestKept if has_dropped => true,
            MendingFault::Implied if distance(&binding, rule.from, rule.to) <= rule.bound as i64 => false,
            _ => possible(fault, &tested),
        };
        if keeps {
            kept.push(place);
            binding.rules.push(rule);
        } else if fault == MendingFault::StillBinds {
            let bound = -distance(&binding, rule.to, rule.from) as i32;
            binding.rules.push(Rule { bound, ..rule });
        }
    }
    kept
}

/// The places of the rules that are left when the rules of one ring after the other are dropped.
fn outside_rings(ticket: &Ticket) -> Vec<usize> {
    let mut places: Vec<usize> = (0..ticket.rules.len()).collect();
    while let Some(ring) = rings::first(&with(ticket, &places), Solver::Flow) {
        let left = (1..).zip(&places).filter(|(number, _)| !ring.contains(number));
        places = left.map(|(_, &place)| place).collect();
    }
    places
}

/// The places of the most rules that have a schedule together.
fn most(ticket: &Ticket) -> Vec<usize> {
    let chosen = |set: u32| (0..ticket.rules.len()).filter(|place| set >> place & 1 == 1).collect::<Vec<usize>>();
    let sets = (0..1u32 << ticket.rules.len()).filter(|&set| distances::has_schedule(&with(ticket, &chosen(set))));
    chosen(sets.max_by_key(|set| set.count_ones()).unwrap_or(0))
}

/// The places of the rules that the fault keeps, rising.
fn kept(fault: MendingFault, ticket: &Ticket) -> Vec<usize> {
    let mut order: Vec<usize> = (0..ticket.rules.len()).collect();
    match fault {
        MendingFault::Echoes => return order,
        MendingFault::WholeRings => return outside_rings(ticket),
        MendingFault::Fewest if order.len() <= 8 => return most(ticket),
        MendingFault::Backwards => order.reverse(),
        MendingFault::ByBounds => order.sort_by_key(|&place| ticket.rules[place].bound),
        _ => {}
    }
    let mut kept = walk(fault, ticket, &order);
    kept.sort();
    kept
}

/// The mended ticket as the fault writes it.
fn mended(fault: MendingFault, ticket: &Ticket, kept: &[usize]) -> Vec<u8> {
    let mut mended = with(ticket, kept);
    match fault {
        MendingFault::Reversed => mended.rules.reverse(),
        MendingFault::Sorted => mended.rules.sort_by_key(|rule| (rule.from, rule.to)),
        MendingFault::OwnersCleared => mended.owners.fill(0),
        _ => {}
    }
    let mut bytes = writing::ticket(&mended);
    if fault == MendingFault::CountsAll {
        let at = 6 + ticket.events();
        bytes[at..at + 2].copy_from_slice(&(ticket.rules.len() as u16).to_le_bytes());
    }
    bytes
}

/// The list of the rules that are not at these places, as the fault writes it.
fn list(fault: MendingFault, ticket: &Ticket, kept: &[usize]) -> Vec<u8> {
    let listed = |place: &usize| kept.contains(place) == (fault == MendingFault::ListsKept);
    let mut numbers: Vec<u16> = (0..ticket.rules.len()).filter(listed).map(|place| place as u16 + 1).collect();
    match fault {
        MendingFault::FromZero => numbers.iter_mut().for_each(|number| *number -= 1),
        MendingFault::Falling => numbers.reverse(),
        MendingFault::UpperByteFirst => numbers.iter_mut().for_each(|number| *number = number.swap_bytes()),
        _ => {}
    }
    let mut bytes = writing::dropped(&numbers);
    match fault {
        MendingFault::OneByteCount => drop(bytes.remove(1)),
        MendingFault::OneByteNumbers => {
            bytes.truncate(2);
            bytes.extend(numbers.iter().map(|&number| number as u8));
        }
        MendingFault::CountsBytes => {
            let length = bytes.len() as u16;
            bytes[..2].copy_from_slice(&length.to_le_bytes());
        }
        _ => {}
    }
    bytes
}

fn written(fault: MendingFault, bytes: &[u8]) -> Mending {
    let bytes = if fault == MendingFault::BytesAfter { ticket_prefix(bytes) } else { bytes };
    let ticket = reading::ticket(bytes)?;
    if fault == MendingFault::Nine && !distances::has_schedule(&ticket) {
        return Err(9);
    }
    let kept = kept(fault, &ticket);
    Ok((mended(fault, &ticket, &kept), list(fault, &ticket, &kept)))
}

/// Whether the fault takes outputs of these lengths for too short; what is written has to fit in any case.
fn is_short(fault: MendingFault, mending: &Mending, out: usize, dropped: usize) -> bool {
    let (length, listed) = mending.as_ref().map_or((0, 0), |(ticket, list)| (ticket.len(), list.len()));
    let (least, least_listed) = match fault {
        MendingFault::FitsOutputs => (length, listed),
        MendingFault::LeastExchanged => (calls::DROPPED, calls::TICKET),
        MendingFault::Least1583 => (1_583, calls::DROPPED),
        MendingFault::Least513 => (calls::TICKET, 513),
        MendingFault::Least512 => (calls::TICKET, 512),
        _ => (calls::TICKET, calls::DROPPED),
    };
    let short = [out < least, dropped < least_listed];
    let too_short = if fault == MendingFault::BothShort { short == [true; 2] } else { short.contains(&true) };
    too_short || out < length || dropped < listed
}

/// The number of mending with this fault.
pub fn mend(fault: MendingFault, bytes: &[u8], out: &mut [u8], dropped: &mut [u8]) -> u32 {
    let mending = written(fault, bytes);
    let number = match &mending {
        Err(number) if fault == MendingFault::ShortLast => *number,
        _ if is_short(fault, &mending, out.len(), dropped.len()) => 10,
        Err(number) => *number,
        Ok(_) => 0,
    };
    match (fault, mending) {
        (MendingFault::TouchesOnRefusal, _) if number != 0 => out.iter_mut().take(1).for_each(|byte| *byte ^= 1),
        (MendingFault::ListsOnRefusal, _) if number != 0 => dropped.iter_mut().take(2).for_each(|byte| *byte = 0),
        (_, Ok((ticket, list))) if number == 0 => {
            if fault == MendingFault::ClearsList {
                dropped[..calls::DROPPED].fill(0);
            }
            out[..ticket.len()].copy_from_slice(&ticket);
            dropped[..list.len()].copy_from_slice(&list);
            let rest = match fault {
                MendingFault::TouchesRest => out.get_mut(ticket.len()),
                MendingFault::TouchesListRest => dropped.get_mut(list.len()),
                _ => None,
            };
            rest.into_iter().for_each(|byte| *byte ^= 1);
        }
        _ => {}
    }
    number
}
