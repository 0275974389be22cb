//! Libraries with one planted fault each. The self-check has the quick part find every one of them.

use crate::counts_faults::{self, CountsFault};
use crate::library::{self, Library, Model};
use crate::mending_faults::{self, MendingFault};
use crate::mirror;
use crate::model::calls::{self, Answer, Asked, Loose, LooseRecord, Outcome};
use crate::model::{
    distances, reading, text, Commitment, Prefer, Range, Record, Rule, Solver, Ticket, Window, DEVICES,
};
use crate::narrowing_faults::{self, NarrowingFault};
use crate::parts_faults::{self, LineFault, PartFault};
use crate::reason_faults::{self, ReasonFault};
use crate::rights_faults::{self, CallFault, ViewFault};
use crate::scratch_faults::{self, Call, ScratchFault};
use crate::stop_faults::{self, StopFault};
use crate::weight_faults::{self, WeightFault};

#[derive(Clone, Copy, Debug, PartialEq, Eq)]
pub enum Fault {
    /// Every ticket has no schedule.
    RefusesAll,
    /// Every window is 0..0.
    OnePlan,
    /// Answers are right but nothing is written.
    Silent,
    /// After the first commitment the record comes back as it was.
    EchoesLater,
    /// The count of the event's device rises by two.
    InventsCount,
    /// A widest plan that is not the earliest.
    LatestPlan,
    /// Earliest to latest of each event as its window.
    EarliestToLatest,
    /// Planning afresh after a commitment: free windows may lose ticks.
    ForgetsFormer,
    /// The other windows stay as they are after a commitment.
    NoWidening,
    /// The total leaves committed windows out.
    TotalOfFree,
    /// Fitness tried on middle ticks only.
    MiddleTicks,
    /// A ring of rules of sum 0 counts as impossible.
    RefusesZeroRing,
    /// A rule's bound is looked at before its points.
    BoundFirst,
    /// Bytes after the end are not noticed.
    BytesAfter,
    /// Any output that holds the record is enough.
    ShortOutput,
    /// A byte after the record is cleared.
    TouchesRest,
    /// Scratch stays as it is on a refusal.
    DirtyScratch,
    /// The table leaves out paths through the last event.
    TableStops,
    /// The table takes each rule from its second point to its first.
    TableTurned,
    /// A number after the table is cleared.
    TableTouchesRest,
    /// A record is written though a window closes after the horizon.
    WritesLateWindow,
    /// Printed events are numbered from 0.
    PrintsFromZero,
    /// The plan where the latest one is asked for.
    EarliestForLatest,
    /// Latest opens with earliest closes, where these are not before them.
    LatestOpensOnly,
    /// Latest plan by the mirror, whose opens are taken for opens and closes for closes.
    EndsNotExchanged,
    /// Latest plan by a mirror in which the rules of session start keep their bounds.
    MirrorWithoutHorizon,
    /// Latest plan by a mirror whose bounds are cut to a ticket's range.
    MirrorCut,
    /// Latest plan refused with 7 where a bound of the mirror passes a ticket's range.
    MirrorRefused,
    /// A C door that gives the plan where the latest one is asked for.
    EarliestDoor,
    /// Scratch stays as it is after a latest plan.
    LatestDirtyScratch,
    /// A commitment prefers the latest.
    CommitsLatest,
    /// The program overlooks the word `latest`.
    PrintsEarliest,
    /// A fault of the call for reasons in words.
    Reason(ReasonFault),
    /// A fault of the call for tables after some stops.
    Stops(StopFault),
    /// A fault of narrowing again.
    Narrowing(NarrowingFault),
    /// A fault of the devices' counts.
    Counts(CountsFault),
    /// A fault of mending.
    Mending(MendingFault),
    /// A fault of what a tick of width counts.
    Weights(WeightFault),
    /// A fault of a device's part.
    Parts(PartFault),
    /// A fault of the line of part totals.
    Line(LineFault),
    /// A fault of what a call makes of the lent scratch.
    Scratch(ScratchFault, Call),
    /// A fault of a commitment's caller.
    Calls(CallFault),
    /// A fault of a view.
    Views(ViewFault),
}

/// All faults but those of reasons, of stops, of narrowing again, of counts, of mending, of weights, of parts, of scratch, of
/// callers and of views.
pub const FAULTS: [Fault; 32] = [
    Fault::RefusesAll,
    Fault::OnePlan,
    Fault::Silent,
    Fault::EchoesLater,
    Fault::InventsCount,
    Fault::LatestPlan,
    Fault::EarliestToLatest,
    Fault::ForgetsFormer,
    Fault::NoWidening,
    Fault::TotalOfFree,
    Fault::MiddleTicks,
    Fault::RefusesZeroRing,
    Fault::BoundFirst,
    Fault::BytesAfter,
    Fault::ShortOutput,
    Fault::TouchesRest,
    Fault::DirtyScratch,
    Fault::TableStops,
    Fault::TableTurned,
    Fault::TableTouchesRest,
    Fault::WritesLateWindow,
    Fault::PrintsFromZero,
    Fault::EarliestForLatest,
    Fault::LatestOpensOnly,
    Fault::EndsNotExchanged,
    Fault::MirrorWithoutHorizon,
    Fault::MirrorCut,
    Fault::MirrorRefused,
    Fault::EarliestDoor,
    Fault::LatestDirtyScratch,
    Fault::CommitsLatest,
    Fault::PrintsEarliest,
];

/// Faults that only make an answer less: fit windows that are not the widest, with the right total of these, in all answers, in
/// a latest plan or after a commitment; and 9 where there is a schedule.
pub const GIVING_LESS: [Fault; 5] = [
    Fault::Weights(WeightFault::ChoiceOfOne),
    Fault::Weights(WeightFault::LatestOfOne),
    Fault::Weights(WeightFault::CommitsOfOne),
    Fault::NoWidening,
    Fault::RefusesZeroRing,
];

/// Faults by which a device is told of others: of their events' number, owners, windows and flags, of their counts, of the
/// horizon or of the rules.
pub const TELLING: [Fault; 31] = [
    Fault::Counts(CountsFault::FullAny),
    Fault::Counts(CountsFault::FullSum),
    Fault::Calls(CallFault::Ignored),
    Fault::Calls(CallFault::AnyDevice),
    Fault::Calls(CallFault::IgnoredByDoor),
    Fault::Calls(CallFault::CameraAll),
    Fault::Calls(CallFault::DatabasesByAll),
    Fault::Calls(CallFault::CommittedByAll),
    Fault::Calls(CallFault::SameByAll),
    Fault::Calls(CallFault::NextOwner),
    Fault::Calls(CallFault::TwentyAfterInside),
    Fault::Calls(CallFault::TwentyLast),
    Fault::Calls(CallFault::ElevenForNone),
    Fault::Calls(CallFault::ElevenForAnothers),
    Fault::Calls(CallFault::ThirteenForAnothers),
    Fault::Calls(CallFault::FullNext),
    Fault::Calls(CallFault::FullFirst),
    Fault::Calls(CallFault::HorizonOutside),
    Fault::Calls(CallFault::MetOutside),
    Fault::Views(ViewFault::AllForAll),
    Fault::Views(ViewFault::DatabasesForAll),
    Fault::Views(ViewFault::NextDevice),
    Fault::Views(ViewFault::FromOne),
    Fault::Views(ViewFault::OneMore),
    Fault::Views(ViewFault::AnothersWindow),
    Fault::Views(ViewFault::AnothersFlag),
    Fault::Views(ViewFault::FirstFlags),
    Fault::Views(ViewFault::Afresh),
    Fault::Views(ViewFault::CountOfAll),
    Fault::Views(ViewFault::ByAnothersCount),
    Fault::Views(ViewFault::ByHorizon),
];

pub struct Faulty {
    pub fault: Fault,
}

fn best(ticket: &Ticket, prefer: Prefer) -> Option<Vec<Window>> {
    ticket.best(&ticket.any_windows(), prefer, Solver::Flow)
}

const FARTHEST: i32 = 1_000_000;

/// The latest plan by a mirror with this fault.
fn by_mirror(ticket: &Ticket, fault: Fault) -> Option<Vec<Window>> {
    let mut mirror = mirror::ticket(ticket);
    for (rule, old) in mirror.rules.iter_mut().zip(&ticket.rules) {
        match fault {
            Fault::MirrorWithoutHorizon => rule.bound = old.bound,
            Fault::MirrorCut => rule.bound = rule.bound.clamp(-FARTHEST, FARTHEST),
            _ => {}
        }
    }
    let windows = best(&mirror, Prefer::Earliest)?;
    let h = ticket.horizon;
    Some(match fault {
        Fault::EndsNotExchanged => windows.iter().map(|w| Window { open: h - w.open, close: h - w.close }).collect(),
        _ => mirror::windows(h, &windows),
    })
}

/// Latest opens with earliest closes, or the latest window where that is none.
fn latest_opens(ticket: &Ticket) -> Option<Vec<Window>> {
    let (earliest, latest) = (best(ticket, Prefer::Earliest)?, best(ticket, Prefer::Latest)?);
    let mixed = |(early, late): (&Window, &Window)| Window {
        open: late.open,
        close: if late.open <= early.close { early.close } else { late.close },
    };
    Some(earliest.iter().zip(&latest).map(mixed).collect())
}

fn earliest_to_latest(ticket: &Ticket) -> Option<Vec<Window>> {
    let rows = distances::table(ticket)?;
    let window = |k: usize| Window { open: (-rows[k][0]) as u32, close: rows[0][k] as u32 };
    Some((1..=ticket.events()).map(window).collect())
}

fn has_zero_ring(ticket: &Ticket) -> bool {
    let points = 1..=ticket.events();
    distances::table(ticket).is_some_and(|d| points.clone().any(|i| (1..i).any(|j| d[i][j] + d[j][i] == 0)))
}

/// The longest prefix that reads as a ticket, if there is one.
pub fn ticket_prefix(bytes: &[u8]) -> &[u8] {
    let whole = |length: &usize| reading::ticket(&bytes[..*length]).is_ok();
    match reading::ticket(bytes) {
        Err(8) => &bytes[..(0..bytes.len()).find(whole).unwrap_or(bytes.len())],
        _ => bytes,
    }
}

/// 7 instead of 6 where both apply to the rule that is refused.
fn bound_first(bytes: &[u8], number: u32) -> u32 {
    let rules = 8 + bytes.get(4).map_or(0, |&n| n as usize);
    let rule = (rules..bytes.len().saturating_sub(5)).step_by(6).find(|&at| {
        let (from, to) = (bytes[at], bytes[at + 1]);
        from == to || from > bytes[4] || to > bytes[4]
    });
    match rule {
        Some(at) if number == 6 => {
            let bound = i32::from_le_bytes([bytes[at + 2], bytes[at + 3], bytes[at + 4], bytes[at + 5]]);
            if bound.unsigned_abs() > 1_000_000 {
                7
            } else {
                6
            }
        }
        _ => number,
    }
}

impl Faulty {
    /// A latest plan with a fault of its own; none if the fault is in all plans or in none.
    fn latest(&self, bytes: &[u8]) -> Option<Outcome> {
        let ticket = match reading::ticket(bytes) {
            Ok(ticket) => ticket,
            Err(number) => return Some(Err(number)),
        };
        let windows = match self.fault {
            Fault::EarliestForLatest => best(&ticket, Prefer::Earliest),
            Fault::LatestOpensOnly => latest_opens(&ticket),
            Fault::EndsNotExchanged | Fault::MirrorWithoutHorizon | Fault::MirrorCut => by_mirror(&ticket, self.fault),
            Fault::MirrorRefused => {
                let far = |rule: &Rule| rule.bound.abs() > FARTHEST;
                return mirror::ticket(&ticket).rules.iter().any(far).then_some(Err(7));
            }
            _ => return None,
        };
        Some(windows.ok_or(9u32).map(|windows| {
            let total = ticket.total(&windows);
            (Record::new(ticket, windows), total)
        }))
    }

    fn planned(&self, prefer: Prefer, bytes: &[u8]) -> Outcome {
        if let Fault::Weights(fault) = self.fault {
            return weight_faults::planned(fault, prefer, bytes);
        }
        let bytes = if self.fault == Fault::BytesAfter { ticket_prefix(bytes) } else { bytes };
        let special = if prefer == Prefer::Latest { self.latest(bytes) } else { None };
        let outcome = special.unwrap_or_else(|| library::planned(prefer, bytes));
        let (mut record, mut total) = outcome.map_err(|number| match self.fault {
            Fault::BoundFirst => bound_first(bytes, number),
            _ => number,
        })?;
        match self.fault {
            Fault::RefusesAll => return Err(9),
            Fault::OnePlan => record.windows.fill(Window { open: 0, close: 0 }),
            Fault::LatestPlan => record.windows = best(&record.ticket, Prefer::Latest).ok_or(9u32)?,
            Fault::EarliestToLatest => {
                record.windows = earliest_to_latest(&record.ticket).ok_or(9u32)?;
                total = record.ticket.total(&record.windows);
            }
            Fault::RefusesZeroRing if has_zero_ring(&record.ticket) => return Err(9),
            Fault::Counts(fault) => record.counts = counts_faults::planned(fault, prefer, &record),
            _ => {}
        }
        Ok((record, total))
    }

    fn committed(&self, bytes: &[u8], commitment: Commitment) -> Outcome {
        match self.fault {
            Fault::Narrowing(fault) => return narrowing_faults::committed(fault, bytes, commitment),
            Fault::Counts(fault) => return counts_faults::committed(fault, bytes, commitment),
            Fault::Weights(fault) => return weight_faults::committed(fault, bytes, commitment),
            _ => {}
        }
        let outcome = library::committed(bytes, commitment);
        let former = reading::record(bytes);
        match (self.fault, outcome, former) {
            (Fault::EchoesLater, Ok((_, total)), Ok(former)) if former.counts != [0; DEVICES] => Ok((former, total)),
            (Fault::InventsCount, Ok((mut record, total)), _) => {
                let owner = record.ticket.owners[commitment.event as usize - 1];
                record.counts[owner as usize] += 1;
                Ok((record, total))
            }
            (Fault::ForgetsFormer, Ok((record, _)), _) => Ok(afresh(record)),
            (Fault::NoWidening, Ok((mut record, _)), Ok(mut former)) => {
                former.windows[commitment.event as usize - 1] =
                    Window { open: commitment.open, close: commitment.close };
                record.windows = former.windows;
                let total = record.ticket.total(&record.windows);
                Ok((record, total))
            }
            (Fault::TotalOfFree, Ok((record, _)), _) => {
                let windows = record.windows.iter().zip(&record.committed);
                let free = windows.map(|(&w, &committed)| if committed { Window { close: w.open, ..w } } else { w });
                let total = record.ticket.total(&free.collect::<Vec<_>>());
                Ok((record, total))
            }
            (Fault::MiddleTicks, Err(15), Ok(former)) if middles_fit(&former) => {
                let total = former.ticket.total(&former.windows);
                Ok((former, total))
            }
            (Fault::CommitsLatest, Ok((mut record, total)), Ok(former)) => {
                let ranges = former.ranges_after(commitment);
                let windows = former.ticket.best(&ranges, Prefer::Latest, Solver::Flow);
                record.windows = windows.unwrap_or(record.windows);
                Ok((record, total))
            }
            (_, outcome, _) => outcome,
        }
    }

    fn delivered(&self, outcome: impl FnOnce() -> Outcome, out: &mut [u8], scratch: &mut [u32]) -> Answer {
        match self.fault {
            Fault::ShortOutput if out.len() < calls::RECORD => {
                let mut long = vec![0; calls::RECORD];
                let answer = calls::deliver(outcome, &mut long, scratch);
                if out.len() < answer.length as usize {
                    return calls::refused(10);
                }
                out[..answer.length as usize].copy_from_slice(&long[..answer.length as usize]);
                answer
            }
            Fault::Silent => {
                let before = out.to_vec();
                let answer = calls::deliver(outcome, out, scratch);
                out.copy_from_slice(&before);
                answer
            }
            Fault::TouchesRest => {
                let answer = calls::deliver(outcome, out, scratch);
                if let Some(byte) = out.get_mut(answer.length as usize).filter(|_| answer.number == 0) {
                    *byte = 0;
                }
                answer
            }
            Fault::DirtyScratch => {
                let before = scratch.to_vec();
                let answer = calls::deliver(outcome, out, scratch);
                if answer.number != 0 {
                    scratch.copy_from_slice(&before);
                }
                answer
            }
            Fault::Counts(fault) => counts_faults::deliver(fault, outcome, out, scratch),
            _ => calls::deliver(outcome, out, scratch),
        }
    }
}

/// The record with its free windows planned anew, whatever they were.
pub fn afresh(mut record: Record) -> (Record, i64) {
    let mut ranges = record.ticket.any_windows();
    for (range, (window, &committed)) in ranges.iter_mut().zip(record.windows.iter().zip(&record.committed)) {
        if committed {
            *range = Range { open: (window.open, window.open), close: (window.close, window.close) };
        }
    }
    if let Some(windows) = record.ticket.best(&ranges, Prefer::Earliest, Solver::Flow) {
        record.windows = windows;
    }
    let total = record.ticket.total(&record.windows);
    (record, total)
}

fn middles_fit(record: &Record) -> bool {
    let middle = |point: u8| match point {
        0 => 0,
        _ => {
            let window = record.windows[point as usize - 1];
            (window.open as i64 + window.close as i64) / 2
        }
    };
    record.ticket.rules.iter().all(|r| middle(r.to) - middle(r.from) <= r.bound as i64)
}

/// The record with windows that close at the horizon at the latest.
fn cut_at_horizon(loose: &LooseRecord) -> LooseRecord {
    let mut cut = loose.clone();
    cut.closes.iter_mut().for_each(|close| *close = (*close).min(loose.ticket.horizon));
    cut
}

/// The text with each event's number one less: in the lines of four numbers.
fn from_zero(text: String) -> String {
    let line = |line: &str| match line.split(' ').map(str::parse::<u32>).collect::<Result<Vec<_>, _>>().as_deref() {
        Ok(&[event, owner, open, close]) => format!("{} {owner} {open} {close}\n", event - 1),
        _ => format!("{line}\n"),
    };
    text.lines().map(line).collect()
}

impl Library for Faulty {
    fn plan_door(&self, prefer: Prefer, ticket: &[u8], out: &mut [u8]) -> u32 {
        let prefer = if self.fault == Fault::EarliestDoor { Prefer::Earliest } else { prefer };
        self.delivered(|| self.planned(prefer, ticket), out, &mut vec![0; calls::SCRATCH]).number
    }

    fn commit_door(&self, record: &[u8], commitment: Commitment, out: &mut [u8]) -> u32 {
        match self.fault {
            Fault::Calls(fault) => rights_faults::commit_door(fault, record, commitment, out),
            _ => self.delivered(|| self.committed(record, commitment), out, &mut vec![0; calls::SCRATCH]).number,
        }
    }

    fn plan(&self, prefer: Prefer, ticket: &[u8], out: &mut [u8], scratch: &mut [u32]) -> Answer {
        let before = scratch.to_vec();
        let answer = match self.fault {
            Fault::Scratch(fault, call) if call == Call::planning(prefer) => {
                scratch_faults::deliver(fault, || self.planned(prefer, ticket), out, scratch)
            }
            _ => self.delivered(|| self.planned(prefer, ticket), out, scratch),
        };
        if self.fault == Fault::LatestDirtyScratch && prefer == Prefer::Latest {
            scratch.copy_from_slice(&before);
        }
        answer
    }

    fn commit(&self, record: &[u8], commitment: Commitment, out: &mut [u8], scratch: &mut [u32]) -> Answer {
        let before = scratch.to_vec();
        let mut answer = match self.fault {
            Fault::Scratch(fault, Call::Commit) => {
                scratch_faults::deliver(fault, || self.committed(record, commitment), out, scratch)
            }
            Fault::Calls(fault) => rights_faults::commit(fault, record, commitment, out, scratch),
            _ => self.delivered(|| self.committed(record, commitment), out, scratch),
        };
        match self.fault {
            Fault::Narrowing(fault) if answer.number == 18 => match fault {
                NarrowingFault::FullLength => answer.length = record.len() as u32,
                NarrowingFault::FullWrites => out[..record.len()].copy_from_slice(record),
                NarrowingFault::FullDirtyScratch => scratch.copy_from_slice(&before),
                _ => {}
            },
            _ => {}
        }
        answer
    }

    fn table(&self, horizon: u32, events: u32, rules: &[Rule], out: &mut [i32]) -> u32 {
        let turned: Vec<Rule> = rules.iter().map(|r| Rule { from: r.to, to: r.from, bound: r.bound }).collect();
        let number = match self.fault {
            Fault::TableTurned => Model.table(horizon, events, &turned, out),
            _ => Model.table(horizon, events, rules, out),
        };
        let size = events as usize + 1;
        if self.fault == Fault::TableTouchesRest && number == 0 && size * size < out.len() {
            out[size * size] = 0;
        }
        if self.fault == Fault::TableStops && number == 0 && events >= 3 {
            let around = |r: &&Rule| r.from as u32 != events && r.to as u32 != events;
            let fewer: Vec<Rule> = rules.iter().filter(around).copied().collect();
            let mut without = vec![0; out.len()];
            Model.table(horizon, events, &fewer, &mut without);
            for i in 0..size - 1 {
                let row = i * size..i * size + size - 1;
                out[row.clone()].copy_from_slice(&without[row]);
            }
        }
        number
    }

    fn table_after(&self, ticket: &[u8], stops: u32, out: &mut [i32]) -> u32 {
        match self.fault {
            Fault::Stops(fault) => stop_faults::table_after(fault, ticket, stops, out),
            _ => Model.table_after(ticket, stops, out),
        }
    }

    fn rewrite_ticket(&self, ticket: &[u8], out: &mut [u8]) -> (u32, u32) {
        Model.rewrite_ticket(ticket, out)
    }

    fn rewrite_record(&self, record: &[u8], out: &mut [u8]) -> (u32, u32) {
        match self.fault {
            Fault::Narrowing(fault) => narrowing_faults::rewrite_record(fault, record, out),
            Fault::Counts(fault) => counts_faults::rewrite_record(fault, record, out),
            _ => Model.rewrite_record(record, out),
        }
    }

    fn write_ticket(&self, loose: &Loose, out: &mut [u8]) -> (u32, u32) {
        Model.write_ticket(loose, out)
    }

    fn write_record(&self, loose: &LooseRecord, out: &mut [u8]) -> (u32, u32) {
        match self.fault {
            Fault::WritesLateWindow => Model.write_record(&cut_at_horizon(loose), out),
            Fault::Narrowing(fault) => narrowing_faults::write_record(fault, loose, out),
            Fault::Counts(fault) => counts_faults::write_record(fault, loose, out),
            _ => Model.write_record(loose, out),
        }
    }

    fn reason(&self, asked: &Asked, out: &mut [u8]) -> (u32, u32) {
        match self.fault {
            Fault::Reason(fault) => reason_faults::reason(fault, asked, out),
            _ => Model.reason(asked, out),
        }
    }

    fn mend(&self, ticket: &[u8], out: &mut [u8], dropped: &mut [u8]) -> u32 {
        match self.fault {
            Fault::Mending(fault) => mending_faults::mend(fault, ticket, out, dropped),
            _ => Model.mend(ticket, out, dropped),
        }
    }

    fn part(&self, ticket: &[u8], device: u32, out: &mut [u8]) -> u32 {
        match self.fault {
            Fault::Parts(fault) => parts_faults::part(fault, ticket, device, out),
            _ => Model.part(ticket, device, out),
        }
    }

    fn view(&self, record: &[u8], caller: u32, out: &mut [u8]) -> u32 {
        match self.fault {
            Fault::Views(fault) => rights_faults::view(fault, record, caller, out),
            _ => Model.view(record, caller, out),
        }
    }

    fn printed(&self, prefer: Prefer, ticket: &[u8]) -> String {
        let prefer = if self.fault == Fault::PrintsEarliest { Prefer::Earliest } else { prefer };
        let outcome = self.planned(prefer, ticket);
        match self.fault {
            Fault::PrintsFromZero => from_zero(text::printed(&outcome)),
            Fault::Weights(fault) => text::printed(&weight_faults::shown(fault, outcome)),
            Fault::Line(fault) => parts_faults::printed(fault, prefer, &outcome),
            _ => text::printed(&outcome),
        }
    }
}
