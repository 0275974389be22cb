//! The calls: what is answered and written, from everything that is lent.

use super::{distances, exhaustive, flags, mending, parts, reading, reason, rings, stops, writing};
use super::{Commitment, Prefer, Record, Rule, Solver, Ticket, Window, DATABASE, DEVICES, MOST_ACCEPTED};

/// Least sizes: bytes of a ticket's and a record's output, numbers of scratch, numbers of a table, bytes of a reason's output,
/// bytes of the output for a list of dropped rules, bytes of a part's output, bytes of a view's output.
pub const TICKET: usize = 1_584;
pub const RECORD: usize = 1_958;
pub const SCRATCH: usize = 2_400;
pub const TABLE: usize = 1_681;
pub const REASON: usize = 2_200;
pub const DROPPED: usize = 514;
pub const PART: usize = 362;
pub const VIEW: usize = 402;

/// Number, length and total; the last two are 0 on a refusal.
#[derive(Clone, Copy, Debug, PartialEq, Eq)]
pub struct Answer {
    pub number: u32,
    pub length: u32,
    pub total: u32,
}

/// A refusal number, or the record written and its total.
pub type Outcome = Result<(Record, i64), u32>;

pub fn refused(number: u32) -> Answer {
    Answer { number, length: 0, total: 0 }
}

/// Rule by rule on the ends of windows; for tiny tickets choice by choice.
fn fit(record: &Record, solver: Solver) -> bool {
    if solver == Solver::Exhaustive {
        return exhaustive::fit(&record.ticket, &record.windows);
    }
    let close = |point: u8| if point == 0 { 0 } else { record.windows[point as usize - 1].close as i64 };
    let open = |point: u8| if point == 0 { 0 } else { record.windows[point as usize - 1].open as i64 };
    record.ticket.rules.iter().all(|r| close(r.to) - open(r.from) <= r.bound as i64)
}

/// Whether a schedule exists; for tiny tickets tried list by list.
fn has_schedule(ticket: &Ticket, solver: Solver) -> bool {
    match solver {
        Solver::Exhaustive => exhaustive::has_schedule(ticket),
        Solver::Flow => distances::has_schedule(ticket),
    }
}

/// Planning of a ticket's bytes, once output and scratch are long enough: the plan, or the latest plan.
pub fn plan(bytes: &[u8], prefer: Prefer, solver: Solver) -> Outcome {
    let ticket = reading::ticket(bytes)?;
    if solver == Solver::Flow && !distances::has_schedule(&ticket) {
        return Err(9);
    }
    let windows = ticket.best(&ticket.any_windows(), prefer, solver).ok_or(9u32)?;
    let total = ticket.total(&windows);
    Ok((Record::new(ticket, windows), total))
}

/// A record's bytes as a caller has them read: 19, then 1 to 8 and 14, then 15.
fn called(bytes: &[u8], caller: u32, solver: Solver) -> Result<Record, u32> {
    reading::caller_in_range(caller)?;
    let record = reading::record(bytes)?;
    if fit(&record, solver) {
        Ok(record)
    } else {
        Err(15)
    }
}

/// A commitment on a record's bytes, once output and scratch are long enough: an event of the caller's, be that the database
/// or another device. The event may have been committed before: its present window counts either way. The earliest is
/// preferred, whatever made the record.
pub fn commit(bytes: &[u8], commitment: Commitment, solver: Solver) -> Outcome {
    let mut record = called(bytes, commitment.caller, solver)?;
    if record.owner(commitment.event) != Some(commitment.caller) {
        return Err(20);
    }
    let place = commitment.event as usize - 1;
    let window = record.windows[place];
    if !(window.open <= commitment.open && commitment.open <= commitment.close && commitment.close <= window.close) {
        return Err(13);
    }
    let owner = commitment.caller as usize;
    if record.counts[owner] == MOST_ACCEPTED {
        return Err(18);
    }
    let ranges = record.ranges_after(commitment);
    let windows = record.ticket.best(&ranges, Prefer::Earliest, solver);
    record.windows = windows.expect("the record's own windows are in the ranges");
    record.committed[place] = true;
    record.counts[owner] += 1;
    let total = record.ticket.total(&record.windows);
    Ok((record, total))
}

/// What planning or a commitment answers with enough memory, and the record that it writes.
#[derive(Clone, Debug, PartialEq, Eq)]
pub struct Delivery {
    pub answer: Answer,
    pub record: Vec<u8>,
}

impl Delivery {
    pub fn of(outcome: &Outcome) -> Delivery {
        match outcome {
            Err(number) => Delivery { answer: refused(*number), record: Vec::new() },
            Ok((record, total)) => {
                let record = writing::record(record);
                let answer = Answer { number: 0, length: record.len() as u32, total: *total as u32 };
                Delivery { answer, record }
            }
        }
    }
}

/// Writes an outcome to a lent output and clears the scratch, as planning and commitment do.
pub fn deliver(outcome: impl FnOnce() -> Outcome, out: &mut [u8], scratch: &mut [u32]) -> Answer {
    if out.len() < RECORD || scratch.len() < SCRATCH {
        return refused(10);
    }
    scratch[..SCRATCH].fill(0);
    let Delivery { answer, record } = Delivery::of(&outcome());
    out[..record.len()].copy_from_slice(&record);
    answer
}

/// The ticket that a table is asked for, owners left out; or 2, 3, 5, 6, 7.
pub fn table_request(horizon: u32, events: u32, rules: &[Rule]) -> Result<Ticket, u32> {
    reading::horizon_in_range(horizon)?;
    reading::events_in_range(events)?;
    reading::rules_in_range(rules.len() as u32)?;
    for rule in rules {
        reading::rule_in_range(rule, events as usize)?;
    }
    Ok(Ticket { horizon, owners: vec![0; events as usize], rules: rules.to_vec() })
}

/// A table's number: 10, then that of what is no ticket, then 9 if it has no entries. They are written row by row.
pub fn tabled(ticket: Result<Ticket, u32>, out: &mut [i32], entries: impl FnOnce(&Ticket) -> Option<Vec<i32>>) -> u32 {
    if out.len() < TABLE {
        return 10;
    }
    let ticket = match ticket {
        Ok(ticket) => ticket,
        Err(number) => return number,
    };
    let Some(entries) = entries(&ticket) else { return 9 };
    out[..entries.len()].copy_from_slice(&entries);
    0
}

pub fn table(horizon: u32, events: u32, rules: &[Rule], out: &mut [i32], solver: Solver) -> u32 {
    tabled(table_request(horizon, events, rules), out, |ticket| {
        let rows = match solver {
            Solver::Exhaustive => exhaustive::table(ticket),
            Solver::Flow => distances::table(ticket),
        };
        Some(rows?.into_iter().flatten().map(|entry| entry as i32).collect())
    })
}

/// The table of a ticket's bytes after this many stops: entries of shortest paths over these, if there is a schedule.
pub fn table_after(bytes: &[u8], count: u32, out: &mut [i32], solver: Solver) -> u32 {
    tabled(reading::ticket(bytes), out, |ticket| {
        let is_stop = stops::taken(ticket.events(), count);
        let sums = || stops::sums(&ticket.all_rules(), &is_stop, solver);
        let entry = |sum: Option<i64>| sum.map_or(stops::NO_PATH, |sum| sum as i32);
        has_schedule(ticket, solver).then(|| sums().into_iter().flatten().map(entry).collect())
    })
}

/// Reads a ticket and writes it again: number and length.
pub fn rewrite_ticket(bytes: &[u8], out: &mut [u8]) -> (u32, u32) {
    rewrite(out, TICKET, || reading::ticket(bytes).map(|ticket| writing::ticket(&ticket)))
}

/// Reads a record and writes it again: number and length.
pub fn rewrite_record(bytes: &[u8], out: &mut [u8]) -> (u32, u32) {
    rewrite(out, RECORD, || reading::record(bytes).map(|record| writing::record(&record)))
}

fn rewrite(out: &mut [u8], least: usize, written: impl FnOnce() -> Result<Vec<u8>, u32>) -> (u32, u32) {
    if out.len() < least {
        return (10, 0);
    }
    match written() {
        Err(number) => (number, 0),
        Ok(bytes) => {
            out[..bytes.len()].copy_from_slice(&bytes);
            (0, bytes.len() as u32)
        }
    }
}

/// A ticket as a caller of writing may hand it over: counts of any value over arrays of fixed size.
#[derive(Clone, Debug)]
pub struct Loose {
    pub horizon: u32,
    pub events: u32,
    pub owners: [u8; 40],
    pub rules: u32,
    pub from: [u8; 256],
    pub to: [u8; 256],
    pub bound: [i32; 256],
}

/// A record as a caller of writing may hand it over.
#[derive(Clone, Debug)]
pub struct LooseRecord {
    pub ticket: Loose,
    pub flags: [u8; 40],
    pub opens: [u32; 40],
    pub closes: [u32; 40],
    pub counts: Vec<u32>,
}

impl LooseRecord {
    /// The first five counts, zeros where there are fewer.
    pub fn first_counts(&self) -> [u32; DEVICES] {
        std::array::from_fn(|device| self.counts.get(device).copied().unwrap_or(0))
    }
}

/// What the places that count say; or 2 to 7 as reading gives them.
fn said(loose: &Loose) -> Result<Ticket, u32> {
    reading::horizon_in_range(loose.horizon)?;
    reading::events_in_range(loose.events)?;
    let owners = loose.owners[..loose.events as usize].to_vec();
    owners.iter().try_for_each(|&owner| reading::owner_in_range(owner))?;
    reading::rules_in_range(loose.rules)?;
    let places = 0..loose.rules as usize;
    let rules: Vec<Rule> =
        places.map(|k| Rule { from: loose.from[k], to: loose.to[k], bound: loose.bound[k] }).collect();
    rules.iter().try_for_each(|rule| reading::rule_in_range(rule, owners.len()))?;
    Ok(Ticket { horizon: loose.horizon, owners, rules })
}

/// Writing of such a ticket: 10, then 2 to 7.
pub fn write_ticket(loose: &Loose, out: &mut [u8]) -> (u32, u32) {
    rewrite(out, TICKET, || said(loose).map(|ticket| writing::ticket(&ticket)))
}

/// Writing of such a record: 10, then 2 to 7 and 14 as reading gives them.
pub fn write_record(loose: &LooseRecord, out: &mut [u8]) -> (u32, u32) {
    rewrite(out, RECORD, || {
        let ticket = said(&loose.ticket)?;
        let places = 0..ticket.events();
        let window = |k: usize| Window { open: loose.opens[k], close: loose.closes[k] };
        places.clone().try_for_each(|k| reading::window_in_range(loose.flags[k], window(k), ticket.horizon))?;
        let committed: Vec<bool> = places.clone().map(|k| loose.flags[k] == 1).collect();
        let counts = loose.first_counts();
        let set = flags(&ticket.owners, &committed);
        counts.iter().zip(set).try_for_each(|(&count, set)| reading::count_in_range(count, set))?;
        let windows = places.map(window).collect();
        Ok(writing::record(&Record { ticket, committed, windows, counts }))
    })
}

/// What a reason is asked for with: a ticket, the collection's label list and the roster.
#[derive(Clone, Debug)]
pub struct Asked {
    pub ticket: Vec<u8>,
    pub labels: Vec<u8>,
    pub roster: Vec<u8>,
}

/// The reason of an impossible ticket in words: 10, then 1 to 8, 16 for either list, 17 if there is a schedule.
pub fn reason(asked: &Asked, out: &mut [u8], solver: Solver) -> (u32, u32) {
    rewrite(out, REASON, || {
        let ticket = reading::ticket(&asked.ticket)?;
        let labels = reason::names(&asked.labels, ticket.events())?;
        let roster = reason::names(&asked.roster, DEVICES)?;
        if has_schedule(&ticket, solver) {
            return Err(17);
        }
        let ring = rings::first(&ticket, solver).expect("without a schedule there is a ring");
        Ok(reason::text(&ticket, &rings::numbered(&ticket), &ring, &labels, &roster))
    })
}

/// A refusal number, or what is written to each output: the mended ticket, and the list of dropped rules.
pub type Mending = Result<(Vec<u8>, Vec<u8>), u32>;

/// Mending of a ticket's bytes, once both outputs are long enough: 1 to 8.
pub fn mend(bytes: &[u8], solver: Solver) -> Mending {
    let ticket = reading::ticket(bytes)?;
    let (kept, dropped) = mending::walked(&ticket, |kept| has_schedule(kept, solver));
    Ok((writing::ticket(&kept), writing::dropped(&dropped)))
}

/// Writes what mending gives to two lent outputs: 10, or its number, and the length of what is written to each.
pub fn hand_out(mending: impl FnOnce() -> Mending, out: &mut [u8], dropped: &mut [u8]) -> (u32, usize, usize) {
    if out.len() < TICKET || dropped.len() < DROPPED {
        return (10, 0, 0);
    }
    match mending() {
        Err(number) => (number, 0, 0),
        Ok((ticket, list)) => {
            out[..ticket.len()].copy_from_slice(&ticket);
            dropped[..list.len()].copy_from_slice(&list);
            (0, ticket.len(), list.len())
        }
    }
}

/// A device's part of a ticket's bytes, once the output is long enough: 4, then 1 to 8, then 9.
pub fn part(bytes: &[u8], device: u32, solver: Solver) -> Result<Vec<u8>, u32> {
    let device = u8::try_from(device).ok().filter(|&device| (device as usize) < DEVICES).ok_or(4u32)?;
    let ticket = reading::ticket(bytes)?;
    let table = parts::table(&ticket, solver).ok_or(9u32)?;
    let windows = parts::windows(&ticket, device, &table, solver);
    Ok(writing::part(&parts::events(&ticket, device), &windows))
}

/// Writes a part to a lent output: 10, or its number, and the length of what is written.
pub fn hand_out_part(part: impl FnOnce() -> Result<Vec<u8>, u32>, out: &mut [u8]) -> (u32, u32) {
    rewrite(out, PART, part)
}

/// A caller's view of a record's bytes, once the output is long enough: the events of its own, the database all.
pub fn view(bytes: &[u8], caller: u32, solver: Solver) -> Result<Vec<u8>, u32> {
    let record = called(bytes, caller, solver)?;
    let events = (1..=record.windows.len() as u32)
        .filter(|&event| caller == DATABASE as u32 || record.owner(event) == Some(caller))
        .map(|event| event as usize);
    Ok(writing::view(&record, &events.collect::<Vec<_>>()))
}

/// Writes a view to a lent output: 10, or its number, and the length of what is written.
pub fn hand_out_view(view: impl FnOnce() -> Result<Vec<u8>, u32>, out: &mut [u8]) -> (u32, u32) {
    rewrite(out, VIEW, view)
}
