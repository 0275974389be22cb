//! Plans, commitments, and reading and writing of records, with one planted fault in the devices' counts.

use crate::library;
use crate::model::calls::{self, Answer, LooseRecord, Outcome};
use crate::model::{flags, reading, writing, Commitment, Prefer, Record, DEVICES, MOST_ACCEPTED};

#[derive(Clone, Copy, Debug, PartialEq, Eq)]
pub enum CountsFault {
    /// The count of the device after the event's own raised.
    RaisesAnother,
    /// All five counts raised.
    RaisesAll,
    /// The count raised at the place that the event's number leaves by 5.
    RaisesByNumber,
    /// The count of the next event's device raised.
    RaisesNextEvents,
    /// The other four counts cleared.
    OthersCleared,
    /// A plan starts with the number of each device's events.
    PlansEvents,
    /// A latest plan starts with ones.
    LatestFromOne,
    /// 18 where any device's count stands at 65,535.
    FullAny,
    /// 18 where the counts sum to 65,535 or more.
    FullSum,
    /// 18 where the camera's count stands at 65,535, whosever the event is; after the others' 65,535 comes 0.
    FullCamera,
    /// 18 never: after 65,535 comes 0, and the count of the next device rises.
    Carries,
    /// Counts not looked at.
    AnyCounts,
    /// Each count looked at against all set flags.
    AllFlags,
    /// Each count looked at against the next device's flags.
    OthersFlags,
    /// The sum of the counts looked at against all set flags.
    SumOfFlags,
    /// The number of the counts not looked at.
    AnyNumber,
    /// The upper byte of the number of the counts not looked at.
    NumberLowByte,
    /// 1 for bytes that end inside the counts, whatever those before are.
    PresenceFirst,
    /// 8 before the counts are looked at.
    EndFirst,
    /// 1,948 bytes of output are enough for a record that fits.
    OldOutput,
    /// Counts written in the reverse order.
    Reversed,
    /// Only the counts of devices that own an event written.
    OwnersOnly,
    /// The upper byte of each count written as 0.
    OneByte,
}

pub const COUNTS_FAULTS: [CountsFault; 23] = [
    CountsFault::RaisesAnother,
    CountsFault::RaisesAll,
    CountsFault::RaisesByNumber,
    CountsFault::RaisesNextEvents,
    CountsFault::OthersCleared,
    CountsFault::PlansEvents,
    CountsFault::LatestFromOne,
    CountsFault::FullAny,
    CountsFault::FullSum,
    CountsFault::FullCamera,
    CountsFault::Carries,
    CountsFault::AnyCounts,
    CountsFault::AllFlags,
    CountsFault::OthersFlags,
    CountsFault::SumOfFlags,
    CountsFault::AnyNumber,
    CountsFault::NumberLowByte,
    CountsFault::PresenceFirst,
    CountsFault::EndFirst,
    CountsFault::OldOutput,
    CountsFault::Reversed,
    CountsFault::OwnersOnly,
    CountsFault::OneByte,
];

/// Bytes of the counts, with their number.
const SECTION: usize = 2 + 2 * DEVICES;

/// The record that these bytes hold but for its counts, and the bytes from these on; none if it is wrong before them.
fn parted(bytes: &[u8]) -> Option<(Record, &[u8])> {
    let n = *bytes.get(4)? as usize;
    let m = *bytes.get(6 + n)? as usize + 256 * *bytes.get(7 + n)? as usize;
    let (before, section) = bytes.split_at_checked(10 + 10 * n + 6 * m)?;
    let full = [before, &[5, 0], &[255; 2 * DEVICES]].concat();
    Some((reading::record(&full).ok()?, section))
}

/// The least that each count may be, as the fault sees it.
fn least(fault: CountsFault, record: &Record) -> [u32; DEVICES] {
    let own = flags(&record.ticket.owners, &record.committed);
    match fault {
        CountsFault::AnyCounts | CountsFault::SumOfFlags => [0; DEVICES],
        CountsFault::AllFlags => [own.iter().sum(); DEVICES],
        CountsFault::OthersFlags => std::array::from_fn(|device| own[(device + 1) % DEVICES]),
        _ => own,
    }
}

/// Whether the sum of the counts is what the fault asks for.
fn sum_in_range(fault: CountsFault, record: &Record, counts: [u32; DEVICES]) -> bool {
    let set = record.committed.iter().filter(|&&flag| flag).count() as u32;
    fault != CountsFault::SumOfFlags || counts.iter().sum::<u32>() >= set
}

/// The counts that the fault reads out of the bytes after the windows, or the number that it gives.
fn counts(fault: CountsFault, record: &Record, section: &[u8]) -> Result<[u32; DEVICES], u32> {
    match fault {
        CountsFault::PresenceFirst if section.len() < SECTION => return Err(1),
        CountsFault::EndFirst if section.len() > SECTION => return Err(8),
        _ => {}
    }
    let number = |place: usize| match section.get(2 * place..2 * place + 2) {
        Some(pair) => Ok(pair[0] as u32 + 256 * pair[1] as u32),
        None => Err(1u32),
    };
    let five = match fault {
        CountsFault::AnyNumber => number(0).map(|_| 5)?,
        CountsFault::NumberLowByte => number(0)? % 256,
        _ => number(0)?,
    };
    if five != 5 {
        return Err(14);
    }
    let mut counts = [0; DEVICES];
    for (device, least) in least(fault, record).into_iter().enumerate() {
        counts[device] = number(device + 1)?;
        if counts[device] < least {
            return Err(14);
        }
    }
    match section.len() {
        _ if !sum_in_range(fault, record, counts) => Err(14),
        SECTION => Ok(counts),
        _ => Err(8),
    }
}

/// The record as the fault reads it.
fn read(fault: CountsFault, bytes: &[u8]) -> Result<Record, u32> {
    match parted(bytes) {
        Some((record, section)) => Ok(Record { counts: counts(fault, &record, section)?, ..record }),
        None => reading::record(bytes),
    }
}

/// The record's bytes as the fault writes them.
fn written(fault: CountsFault, record: &Record) -> Vec<u8> {
    let mut bytes = writing::record(record);
    let mut counts = record.counts.to_vec();
    match fault {
        CountsFault::Reversed => counts.reverse(),
        CountsFault::OneByte => counts.iter_mut().for_each(|count| *count %= 256),
        CountsFault::OwnersOnly => {
            let devices = (0..).zip(record.counts).filter(|(device, _)| record.ticket.owners.contains(device));
            counts = devices.map(|(_, count)| count).collect();
        }
        _ => {}
    }
    bytes.truncate(bytes.len() - SECTION);
    bytes.extend((counts.len() as u16).to_le_bytes());
    bytes.extend(counts.iter().flat_map(|&count| (count as u16).to_le_bytes()));
    bytes
}

/// Number and length of a record that the fault writes to an output.
fn put(fault: CountsFault, record: Result<Record, u32>, out: &mut [u8]) -> (u32, u32) {
    let enough = if fault == CountsFault::OldOutput { 1_948 } else { calls::RECORD };
    match record.map(|record| written(fault, &record)) {
        _ if out.len() < enough => (10, 0),
        Err(number) => (number, 0),
        Ok(bytes) if out.len() < bytes.len() => (10, 0),
        Ok(bytes) => {
            out[..bytes.len()].copy_from_slice(&bytes);
            (0, bytes.len() as u32)
        }
    }
}

/// The counts that a plan starts with.
pub fn planned(fault: CountsFault, prefer: Prefer, record: &Record) -> [u32; DEVICES] {
    match fault {
        CountsFault::PlansEvents => flags(&record.ticket.owners, &vec![true; record.windows.len()]),
        CountsFault::LatestFromOne if prefer == Prefer::Latest => [1; DEVICES],
        _ => record.counts,
    }
}

/// The counts after a commitment of the event at this place is accepted; none if it is refused with 18.
fn raised(fault: CountsFault, former: &Record, place: usize) -> Option<[u32; DEVICES]> {
    let owners = &former.ticket.owners;
    let owner = owners[place] as usize;
    let next = (owner + 1) % DEVICES;
    let mut counts = former.counts;
    let full = match fault {
        CountsFault::FullAny => counts.contains(&MOST_ACCEPTED),
        CountsFault::FullSum => counts.iter().sum::<u32>() >= MOST_ACCEPTED,
        CountsFault::FullCamera => counts[0] == MOST_ACCEPTED,
        CountsFault::Carries => false,
        _ => counts[owner] == MOST_ACCEPTED,
    };
    match fault {
        _ if full => return None,
        CountsFault::RaisesAnother => counts[next] += 1,
        CountsFault::RaisesAll => counts = counts.map(|count| count + 1),
        CountsFault::RaisesByNumber => counts[(place + 1) % DEVICES] += 1,
        CountsFault::RaisesNextEvents => counts[owners[(place + 1) % owners.len()] as usize] += 1,
        CountsFault::OthersCleared => {
            counts = [0; DEVICES];
            counts[owner] = former.counts[owner] + 1;
        }
        CountsFault::Carries if counts[owner] == MOST_ACCEPTED => {
            counts[owner] = 0;
            counts[next] += 1;
        }
        _ => counts[owner] += 1,
    }
    Some(counts)
}

/// The commitment as if each count had room, and then the counts that the fault makes of it.
pub fn committed(fault: CountsFault, bytes: &[u8], commitment: Commitment) -> Outcome {
    reading::caller_in_range(commitment.caller)?;
    let former = read(fault, bytes)?;
    let roomy = Record { counts: [MOST_ACCEPTED - 1; DEVICES], ..former.clone() };
    let (record, total) = library::committed(&writing::record(&roomy), commitment)?;
    let counts = raised(fault, &former, commitment.event as usize - 1).ok_or(18u32)?;
    Ok((Record { counts, ..record }, total))
}

/// Writes an outcome to a lent output and clears the scratch.
pub fn deliver(fault: CountsFault, outcome: impl FnOnce() -> Outcome, out: &mut [u8], scratch: &mut [u32]) -> Answer {
    if scratch.len() < calls::SCRATCH {
        return calls::refused(10);
    }
    let outcome = outcome();
    let total = outcome.as_ref().map_or(0, |(_, total)| *total as u32);
    match put(fault, outcome.map(|(record, _)| record), out) {
        (10, _) => calls::refused(10),
        (number, length) => {
            scratch[..calls::SCRATCH].fill(0);
            Answer { number, length, total }
        }
    }
}

/// Number and length of a record that is read with this fault and written again.
pub fn rewrite_record(fault: CountsFault, bytes: &[u8], out: &mut [u8]) -> (u32, u32) {
    put(fault, read(fault, bytes), out)
}

/// Number and length of a record of any values that is written with this fault.
pub fn write_record(fault: CountsFault, loose: &LooseRecord, out: &mut [u8]) -> (u32, u32) {
    let mut bytes = vec![0; calls::RECORD];
    let roomy = LooseRecord { counts: vec![MOST_ACCEPTED; DEVICES], ..loose.clone() };
    let counts = loose.first_counts();
    let record = match calls::write_record(&roomy, &mut bytes) {
        (0, length) => reading::record(&bytes[..length as usize]).and_then(|record| {
            let mut pairs = counts.iter().zip(least(fault, &record));
            let holds = pairs.all(|(&count, least)| (least..=MOST_ACCEPTED).contains(&count));
            if holds && sum_in_range(fault, &record, counts) {
                Ok(Record { counts, ..record })
            } else {
                Err(14)
            }
        }),
        (number, _) => Err(number),
    };
    put(fault, record, out)
}
