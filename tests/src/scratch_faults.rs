//! Both plans and commitment with one planted fault in what they make of the lent scratch.

use crate::model::calls::{self, Answer, Delivery, Outcome};
use crate::model::{Prefer, Record};

/// A call that is lent scratch.
#[derive(Clone, Copy, Debug, PartialEq, Eq)]
pub enum Call {
    Plan,
    Latest,
    Commit,
}

pub const CALLS: [Call; 3] = [Call::Plan, Call::Latest, Call::Commit];

impl Call {
    pub fn planning(prefer: Prefer) -> Call {
        match prefer {
            Prefer::Earliest => Call::Plan,
            Prefer::Latest => Call::Latest,
        }
    }
}

#[derive(Clone, Copy, Debug, PartialEq, Eq)]
pub enum ScratchFault {
    /// 2,399 numbers are enough.
    OneFewer,
    /// 1,824 numbers, as many as are used, are enough.
    AsUsed,
    /// 2,401 numbers asked for.
    OneMore,
    /// 8,192 numbers asked for, as before.
    AsBefore,
    /// 10 only where output and scratch are both too short.
    BothShort,
    /// 10 for a short scratch after all other refusals.
    ShortLast,
    /// One number more cleared.
    ClearsNext,
    /// The last of the 2,400 left.
    LastLeft,
    /// The first 8,192 cleared where there are as many.
    ClearsAsBefore,
    /// All numbers cleared.
    ClearsAll,
    /// Only the 1,824 that are used cleared.
    ClearsUsed,
    /// The scratch cleared on 10, too.
    ClearsOnTen,
    /// The total one more where the first number was not 0.
    TotalByContent,
    /// A window a tick narrower where the last number that is used was not 0.
    WindowByContent,
    /// 10 where one of the numbers was not 0.
    AsksForZeros,
    /// The total one more with 8,192 numbers and more.
    TotalByLength,
    /// A window a tick narrower with more than 2,400 numbers.
    WindowByLength,
}

pub const SCRATCH_FAULTS: [ScratchFault; 17] = [
    ScratchFault::OneFewer,
    ScratchFault::AsUsed,
    ScratchFault::OneMore,
    ScratchFault::AsBefore,
    ScratchFault::BothShort,
    ScratchFault::ShortLast,
    ScratchFault::ClearsNext,
    ScratchFault::LastLeft,
    ScratchFault::ClearsAsBefore,
    ScratchFault::ClearsAll,
    ScratchFault::ClearsUsed,
    ScratchFault::ClearsOnTen,
    ScratchFault::TotalByContent,
    ScratchFault::WindowByContent,
    ScratchFault::AsksForZeros,
    ScratchFault::TotalByLength,
    ScratchFault::WindowByLength,
];

/// How many numbers the calls use, and how many they asked for before 02, change 9.
const USED: usize = 1_824;
const BEFORE: usize = 8_192;

/// The least scratch, as the fault sees it.
fn least(fault: ScratchFault) -> usize {
    match fault {
        ScratchFault::OneFewer => calls::SCRATCH - 1,
        ScratchFault::AsUsed => USED,
        ScratchFault::OneMore => calls::SCRATCH + 1,
        ScratchFault::AsBefore => BEFORE,
        _ => calls::SCRATCH,
    }
}

/// Clears the first numbers, as many of these as there are.
fn clear(scratch: &mut [u32], count: usize) {
    let count = count.min(scratch.len());
    scratch[..count].fill(0);
}

/// How many numbers the fault clears of a scratch of this length.
fn cleared(fault: ScratchFault, length: usize) -> usize {
    match fault {
        ScratchFault::ClearsNext => calls::SCRATCH + 1,
        ScratchFault::LastLeft => calls::SCRATCH - 1,
        ScratchFault::ClearsAsBefore if length >= BEFORE => BEFORE,
        ScratchFault::ClearsAll => length,
        ScratchFault::ClearsUsed => USED,
        _ => calls::SCRATCH,
    }
}

/// The record with its first window of more than a tick a tick narrower.
fn narrowed(mut record: Record) -> Record {
    if let Some(window) = record.windows.iter_mut().find(|window| window.open < window.close) {
        window.close -= 1;
    }
    record
}

/// What the fault makes of a record and its total, with this scratch before the call.
fn accepted(fault: ScratchFault, record: Record, total: i64, scratch: &[u32]) -> (Record, i64) {
    match fault {
        ScratchFault::TotalByContent if scratch[0] != 0 => (record, total + 1),
        ScratchFault::TotalByLength if scratch.len() >= BEFORE => (record, total + 1),
        ScratchFault::WindowByContent if scratch[USED - 1] != 0 => (narrowed(record), total),
        ScratchFault::WindowByLength if scratch.len() > calls::SCRATCH => (narrowed(record), total),
        _ => (record, total),
    }
}

/// Writes an outcome to a lent output and clears the scratch.
pub fn deliver(fault: ScratchFault, outcome: impl FnOnce() -> Outcome, out: &mut [u8], scratch: &mut [u32]) -> Answer {
    let (short_out, short_scratch) = (out.len() < calls::RECORD, scratch.len() < least(fault));
    let short = match fault {
        ScratchFault::BothShort => short_out && short_scratch,
        ScratchFault::AsksForZeros => short_out || short_scratch || scratch.iter().any(|&number| number != 0),
        _ => short_out || short_scratch,
    };
    if short {
        match fault {
            ScratchFault::ClearsOnTen => clear(scratch, calls::SCRATCH),
            ScratchFault::ShortLast if !short_out => return calls::refused(outcome().err().unwrap_or(10)),
            _ => {}
        }
        return calls::refused(10);
    }
    let outcome = outcome().map(|(record, total)| accepted(fault, record, total, scratch));
    clear(scratch, cleared(fault, scratch.len()));
    let Delivery { answer, record } = Delivery::of(&outcome);
    let length = record.len().min(out.len());
    out[..length].copy_from_slice(&record[..length]);
    answer
}
