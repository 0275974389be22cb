//! Kinds of cases. One seed gives one case: some tickets or records and the calls on them.

use crate::generate::{self, Structure, DEVICE_SETS, STRUCTURES};
use crate::impossible::{self, ALL_SHAPES, SHAPES};
use crate::library::Library;
use crate::model::calls::{self, Asked, Loose, LooseRecord};
use crate::model::finer::{Allowed, Finer, Grid};
use crate::model::{exhaustive, flags, parts, reading, rings, writing};
use crate::model::{Commitment, Prefer, Record, Rule, Solver, Ticket, Window};
use crate::model::{BOTH, DATABASE, DEVICES, MOST_ACCEPTED};
use crate::random::Random;
use crate::trial::{hex, Lengths, Outputs, Report, Trial, ENOUGH, LEAST};

#[derive(Clone, Copy, Debug, PartialEq, Eq)]
pub enum Kind {
    /// Tiny tickets, expected answers by exhaustive search.
    Tiny,
    /// Tickets of all structures and sizes up to the largest, each planned and run to the end.
    Structures,
    /// Long runs of commitments on largest tickets, refused ones mixed in; half of them start with the latest plan.
    Runs,
    /// Records that no planning made.
    Foreign,
    /// Bytes damaged, cut and extended.
    Damaged,
    /// Prefixes of a ticket and a record, all that end inside the counts among them, and one byte more.
    Prefixes,
    /// Output and scratch lengths around the limits.
    Lengths,
    /// Table and writing with values that no ticket holds.
    Values,
    /// Writing records with values that no record holds.
    Records,
    /// What the program prints for tickets and other bytes, with and without the word `latest`.
    Text,
    /// Latest plans of tickets of all structures and of damaged ones, and commitments on them.
    Latest,
    /// Latest plans of tiny tickets, expected answers by exhaustive search, which the model's flow has to give, too.
    LatestTiny,
    /// Reasons in words for tickets of all sizes, most of them impossible.
    Reason,
    /// Reasons for tiny tickets, expected rings out of all walks, which least sums of walks have to give, too.
    ReasonTiny,
    /// Reasons with damaged lists of names, and damaged tickets.
    ReasonLists,
    /// Tables after many numbers of stops, of tickets of all structures and of damaged ones.
    Stops,
    /// Long runs of commitments in which committed events narrow again and again, also up to the greatest count.
    Narrowing,
    /// The same on tiny tickets, expected answers by exhaustive search.
    NarrowingTiny,
    /// Records on which one device may commit once more or no more, and records whose counts are damaged.
    Counts,
    /// Tickets of all sizes mended, most of them impossible.
    Mending,
    /// Tiny tickets mended, expected answers by exhaustive search, which Bellman and Ford's method has to give, too.
    MendingTiny,
    /// Damaged and cut tickets mended, and outputs of other lengths.
    MendingBytes,
    /// Both plans of tickets of one device, of two and of all, and commitments on them.
    Weights,
    /// The same on tiny tickets, expected answers by exhaustive search.
    WeightsTiny,
    /// All five parts of tickets of all sizes, of any number for a device, and of damaged tickets.
    Parts,
    /// Parts of tiny tickets, expected answers by exhaustive search, which pairs of opens and closes have to give, too.
    PartsTiny,
    /// Parts of damaged, cut and extended tickets, for any number of a device, with outputs of other lengths.
    PartsBytes,
    /// Parts where no rule joins events of two devices: they are the plan.
    PartsSeparate,
    /// Parts of tickets whose events are one device's: that device's is the plan, most of them with 40 events and 256 rules.
    PartsOneDevice,
    /// Both plans and commitments, against the widest windows on grids of 2 to 7 parts to a tick.
    Finer,
    /// The same on tiny tickets, expected answers and widest windows by exhaustive search, these where the lists are few.
    FinerTiny,
    /// Commitments by any caller, and views of each record by all of them.
    Rights,
    /// The same on tiny tickets, expected answers by exhaustive search.
    RightsTiny,
    /// Commitments by any caller and views, on damaged, cut and extended records, with outputs of other lengths.
    RightsBytes,
    /// Pairs of records that are alike for a device and unlike elsewhere: its view and the numbers that it is answered are
    /// equal.
    RightsPairs,
}

/// What the calls of a kind are about: reasons, mending, parts, finer grids and callers have kinds of their own.
#[derive(Clone, Copy, Debug, PartialEq, Eq)]
pub enum Subject {
    Reasons,
    Mending,
    Parts,
    Finer,
    Rights,
    Others,
}

pub const KINDS: [Kind; 35] = [
    Kind::Tiny,
    Kind::Structures,
    Kind::Runs,
    Kind::Foreign,
    Kind::Damaged,
    Kind::Prefixes,
    Kind::Lengths,
    Kind::Values,
    Kind::Records,
    Kind::Text,
    Kind::Latest,
    Kind::LatestTiny,
    Kind::Reason,
    Kind::ReasonTiny,
    Kind::ReasonLists,
    Kind::Stops,
    Kind::Narrowing,
    Kind::NarrowingTiny,
    Kind::Counts,
    Kind::Mending,
    Kind::MendingTiny,
    Kind::MendingBytes,
    Kind::Weights,
    Kind::WeightsTiny,
    Kind::Parts,
    Kind::PartsTiny,
    Kind::PartsBytes,
    Kind::PartsSeparate,
    Kind::PartsOneDevice,
    Kind::Finer,
    Kind::FinerTiny,
    Kind::Rights,
    Kind::RightsTiny,
    Kind::RightsBytes,
    Kind::RightsPairs,
];

impl Kind {
    pub fn name(self) -> &'static str {
        match self {
            Kind::Tiny => "tiny",
            Kind::Structures => "structures",
            Kind::Runs => "runs",
            Kind::Foreign => "foreign",
            Kind::Damaged => "damaged",
            Kind::Prefixes => "prefixes",
            Kind::Lengths => "lengths",
            Kind::Values => "values",
            Kind::Records => "records",
            Kind::Text => "text",
            Kind::Latest => "latest",
            Kind::LatestTiny => "latest-tiny",
            Kind::Reason => "reason",
            Kind::ReasonTiny => "reason-tiny",
            Kind::ReasonLists => "reason-lists",
            Kind::Stops => "stops",
            Kind::Narrowing => "narrowing",
            Kind::NarrowingTiny => "narrowing-tiny",
            Kind::Counts => "counts",
            Kind::Mending => "mending",
            Kind::MendingTiny => "mending-tiny",
            Kind::MendingBytes => "mending-bytes",
            Kind::Weights => "weights",
            Kind::WeightsTiny => "weights-tiny",
            Kind::Parts => "parts",
            Kind::PartsTiny => "parts-tiny",
            Kind::PartsBytes => "parts-bytes",
            Kind::PartsSeparate => "parts-separate",
            Kind::PartsOneDevice => "parts-one-device",
            Kind::Finer => "finer",
            Kind::FinerTiny => "finer-tiny",
            Kind::Rights => "rights",
            Kind::RightsTiny => "rights-tiny",
            Kind::RightsBytes => "rights-bytes",
            Kind::RightsPairs => "rights-pairs",
        }
    }

    pub fn named(name: &str) -> Option<Kind> {
        KINDS.into_iter().find(|kind| kind.name() == name)
    }

    /// The kind that a long run tries at this seed.
    pub fn at(seed: u64) -> Kind {
        match Random::new(seed ^ 0x6b69_6e64).below(1_000) {
            0..=59 => Kind::Tiny,
            60..=69 => Kind::FinerTiny,
            70..=84 => Kind::WeightsTiny,
            85..=99 => Kind::PartsTiny,
            100..=154 => Kind::Structures,
            155..=164 => Kind::Rights,
            165..=174 => Kind::Finer,
            175..=199 => Kind::Weights,
            200..=219 => Kind::Parts,
            220..=227 => Kind::PartsSeparate,
            228..=232 => Kind::PartsOneDevice,
            233..=239 => Kind::PartsBytes,
            240..=279 => Kind::Runs,
            280..=344 => Kind::Foreign,
            345..=354 => Kind::RightsPairs,
            355..=379 => Kind::Counts,
            380..=409 => Kind::Narrowing,
            410..=449 => Kind::NarrowingTiny,
            450..=489 => Kind::Stops,
            490..=534 => Kind::Damaged,
            535..=549 => Kind::RightsBytes,
            550..=579 => Kind::Mending,
            580..=594 => Kind::MendingTiny,
            595..=609 => Kind::MendingBytes,
            610..=613 => Kind::Prefixes,
            614..=616 => Kind::Lengths,
            617..=639 => Kind::Values,
            640..=666 => Kind::Records,
            667..=669 => Kind::Text,
            670..=779 => Kind::Latest,
            780..=814 => Kind::LatestTiny,
            815..=829 => Kind::RightsTiny,
            830..=909 => Kind::Reason,
            910..=949 => Kind::ReasonTiny,
            _ => Kind::ReasonLists,
        }
    }

    pub fn subject(self) -> Subject {
        match self {
            Kind::Reason | Kind::ReasonTiny | Kind::ReasonLists => Subject::Reasons,
            Kind::Mending | Kind::MendingTiny | Kind::MendingBytes => Subject::Mending,
            Kind::Parts | Kind::PartsTiny | Kind::PartsBytes | Kind::PartsSeparate | Kind::PartsOneDevice => {
                Subject::Parts
            }
            Kind::Finer | Kind::FinerTiny => Subject::Finer,
            Kind::Rights | Kind::RightsTiny | Kind::RightsBytes | Kind::RightsPairs => Subject::Rights,
            _ => Subject::Others,
        }
    }

    /// The numbers that the quick part has to reach in calls of this kind, beside those of all kinds together.
    pub fn numbers(self) -> &'static [usize] {
        match self {
            Kind::Foreign => &[0, 10, 13, 15, 18, 19, 20],
            Kind::Values => &[0, 2, 3, 4, 5, 6, 7, 9, 10],
            Kind::Records => &[0, 2, 3, 4, 5, 6, 7, 10, 14],
            Kind::Text => &[0, 1, 2, 3, 4, 5, 6, 7, 8, 9],
            Kind::Latest => &[0, 1, 2, 3, 4, 5, 6, 7, 8, 9, 10, 13, 19, 20],
            Kind::Reason | Kind::ReasonLists => &[0, 1, 2, 3, 4, 5, 6, 7, 8, 10, 16, 17],
            Kind::ReasonTiny => &[0, 17],
            Kind::Stops => &[0, 1, 2, 3, 4, 5, 6, 7, 8, 9, 10],
            Kind::Narrowing | Kind::NarrowingTiny => &[0, 10, 13, 18, 19, 20],
            Kind::Counts => &[0, 1, 8, 10, 13, 14, 15, 18, 19, 20],
            Kind::Mending => &[0, 10],
            Kind::MendingTiny => &[0],
            Kind::MendingBytes => &[0, 1, 2, 3, 4, 5, 6, 7, 8, 10],
            Kind::Weights | Kind::WeightsTiny => &[0, 9, 10, 13, 19, 20],
            Kind::Parts | Kind::PartsBytes => &[0, 1, 2, 3, 4, 5, 6, 7, 8, 9, 10],
            Kind::PartsTiny | Kind::PartsSeparate | Kind::PartsOneDevice => &[0, 4, 9, 10],
            Kind::Finer | Kind::FinerTiny => &[0, 9, 18],
            Kind::Rights | Kind::RightsTiny => &[0, 9, 10, 13, 15, 18, 19, 20],
            Kind::RightsBytes => &[0, 1, 2, 3, 4, 5, 6, 7, 8, 10, 13, 14, 15, 18, 19, 20],
            Kind::RightsPairs => &[0, 13, 18, 20],
            _ => &[],
        }
    }
}

/// The case of this kind at this seed.
pub fn run(kind: Kind, seed: u64, library: &dyn Library) -> Report {
    run_on(&Finer, kind, seed, library)
}

/// The case with this grid in the finer one's place.
pub fn run_on(grid: &dyn Grid, kind: Kind, seed: u64, library: &dyn Library) -> Report {
    let mut trial = Trial::new(library, seed);
    trial.grid = grid;
    match kind {
        Kind::Tiny => tiny(&mut trial),
        Kind::Structures => structures(&mut trial, seed),
        Kind::Runs => runs(&mut trial),
        Kind::Foreign => foreign(&mut trial),
        Kind::Damaged => damaged(&mut trial),
        Kind::Prefixes => prefixes(&mut trial),
        Kind::Lengths => lengths(&mut trial),
        Kind::Values => values(&mut trial),
        Kind::Records => records(&mut trial),
        Kind::Text => text(&mut trial, seed),
        Kind::Latest => latest(&mut trial, seed),
        Kind::LatestTiny => latest_tiny(&mut trial),
        Kind::Reason => reason(&mut trial, seed),
        Kind::ReasonTiny => reason_tiny(&mut trial),
        Kind::ReasonLists => reason_lists(&mut trial, seed),
        Kind::Stops => stops(&mut trial, seed),
        Kind::Narrowing => narrowing(&mut trial, seed),
        Kind::NarrowingTiny => narrowing_tiny(&mut trial),
        Kind::Counts => counts(&mut trial, seed),
        Kind::Mending => mending(&mut trial, seed),
        Kind::MendingTiny => mending_tiny(&mut trial),
        Kind::MendingBytes => mending_bytes(&mut trial, seed),
        Kind::Weights => weights(&mut trial, seed),
        Kind::WeightsTiny => weights_tiny(&mut trial, seed),
        Kind::Parts => parts(&mut trial, seed),
        Kind::PartsTiny => parts_tiny(&mut trial),
        Kind::PartsBytes => parts_bytes(&mut trial, seed),
        Kind::PartsSeparate => parts_separate(&mut trial),
        Kind::PartsOneDevice => parts_one_device(&mut trial, seed),
        Kind::Finer => finer(&mut trial),
        Kind::FinerTiny => finer_tiny(&mut trial),
        Kind::Rights => rights(&mut trial, seed),
        Kind::RightsTiny => rights_tiny(&mut trial),
        Kind::RightsBytes => rights_bytes(&mut trial, seed),
        Kind::RightsPairs => rights_pairs(&mut trial, seed),
    }
    trial.report
}

/// Table, tables after stops and both round trips of one ticket, then its plan, or its latest one.
fn planned(trial: &mut Trial, prefer: Prefer, ticket: &Ticket) -> Option<Vec<u8>> {
    let bytes = writing::ticket(ticket);
    let length = some_length(calls::TABLE, &mut trial.random);
    trial.table(ticket.horizon, ticket.events() as u32, &ticket.rules, length);
    tables_after(trial, ticket, 4, &[]);
    trial.rewrite_ticket(&bytes, calls::TICKET);
    let record = trial.plan(prefer, &bytes, ENOUGH);
    if let Some(record) = &record {
        trial.rewrite_record(record, calls::RECORD);
    }
    record
}

/// Tables of one ticket after each number of stops and one more; of more than `few` events, after those given and three
/// drawn ones.
fn tables_after(trial: &mut Trial, ticket: &Ticket, few: u32, given: &[u32]) {
    let (bytes, n) = (writing::ticket(ticket), ticket.events() as u32);
    let mut counts: Vec<u32> = (0..=n + 2).collect();
    if n > few {
        counts = given.to_vec();
        counts.extend([(); 3].map(|_| some_stops(n, &mut trial.random)));
    }
    for count in counts {
        trial.table_after(&bytes, count, calls::TABLE);
    }
}

/// How many percent of the commitments narrow again in kinds that are not about that.
const AGAIN: usize = 25;

/// Commits on a record until `most` commitments are tried or every event is committed to a single tick; `refused` percent of
/// the calls bring a commitment with something wrong or too little memory, `again` percent of the others narrow a committed
/// window. After each that is accepted the counts are the start's and the acceptances of each device. The start and each
/// record after it is viewed by a drawn caller.
fn commit_on(trial: &mut Trial, start: Vec<u8>, most: usize, refused: usize, again: usize) {
    let Ok(mut record) = reading::record(&start) else {
        trial.report.differences.push("an unreadable record was written".to_string());
        return;
    };
    let mut bytes = start;
    let mut counts = record.counts;
    // What each window was before its event last narrowed it; at first the whole session.
    let mut earlier = vec![whole_session(&record); record.windows.len()];
    view_by_any(trial, &bytes);
    for _ in 0..most {
        let wrong = trial.random.chance(refused);
        let commitment = if wrong {
            generate::refused_commitment(&record, &earlier, &mut trial.random)
        } else {
            generate::commitment(&record, again, &mut trial.random)
        };
        let commitment = generate::called(commitment, &record, &mut trial.random);
        let lengths = if wrong { some_lengths(&mut trial.random) } else { ENOUGH };
        if let Some(after) = trial.commit(&bytes, commitment, lengths) {
            let Some(next) = trial.follows(&record, commitment, &after) else { return };
            let place = commitment.event as usize - 1;
            counts[record.ticket.owners[place] as usize] += 1;
            trial.expect(next.counts == counts, "counts of a run", || format!("{counts:?} of {}", hex(&after)));
            if next.windows[place] != record.windows[place] {
                earlier[place] = record.windows[place];
            }
            record = next;
            bytes = after;
            view_by_any(trial, &bytes);
        }
        let ticks = record.windows.iter().map(|window| window.open == window.close);
        let settled = ticks.zip(&record.committed).all(|(is_tick, &committed)| is_tick && committed);
        if !trial.report.differences.is_empty() || settled {
            return;
        }
    }
}

fn whole_session(record: &Record) -> Window {
    Window { open: 0, close: record.ticket.horizon }
}

/// A view of these bytes by a drawn caller, three times in four with the least output.
fn view_by_any(trial: &mut Trial, record: &[u8]) {
    let device = trial.random.below(DEVICES) as u32;
    let caller = if trial.random.chance(75) { device } else { generate::some_caller(device, &mut trial.random) };
    let length = if trial.random.chance(75) { calls::VIEW } else { some_length(calls::VIEW, &mut trial.random) };
    trial.view(record, caller, length);
}

fn tiny(trial: &mut Trial) {
    trial.solver = Solver::Exhaustive;
    let ticket = generate::tiny(&mut trial.random);
    if let Some(record) = planned(trial, Prefer::Earliest, &ticket) {
        commit_on(trial, record, 6, 20, AGAIN);
    }
    let record = generate::foreign_record(ticket, &mut trial.random);
    commit_on(trial, writing::record(&record), 4, 10, AGAIN);
}

fn structures(trial: &mut Trial, seed: u64) {
    let (n, horizon) = generate::size(&mut trial.random);
    let structure = STRUCTURES[seed as usize % STRUCTURES.len()];
    let ticket = generate::ticket(structure, n, horizon, &mut trial.random);
    if let Some(record) = planned(trial, Prefer::Earliest, &ticket) {
        commit_on(trial, record, 6, 15, AGAIN);
    }
}

fn runs(trial: &mut Trial) {
    let structure = trial.random.pick(&[
        Structure::Session,
        Structure::Hidden,
        Structure::Chain,
        Structure::Diamonds,
        Structure::Precedence,
        Structure::Ring,
        Structure::Squeezed,
    ]);
    let n = trial.random.pick(&[10, 20, 40]);
    let horizon = trial.random.pick(&[40, 36_000, 1_000_000]);
    let ticket = generate::ticket(structure, n, horizon, &mut trial.random);
    let prefer = trial.random.pick(&BOTH);
    if let Some(record) = planned(trial, prefer, &ticket) {
        commit_on(trial, record, 70, 30, AGAIN);
    }
}

fn foreign(trial: &mut Trial) {
    let (n, horizon) = generate::size(&mut trial.random);
    let structure = trial.random.pick(&STRUCTURES);
    let ticket = generate::ticket(structure, n, horizon, &mut trial.random);
    let record = generate::foreign_record(ticket, &mut trial.random);
    let bytes = writing::record(&record);
    trial.rewrite_record(&bytes, calls::RECORD);
    commit_on(trial, bytes, 3, 25, AGAIN);
}

/// A ticket and a record of it with windows that need not be fit.
fn ticket_and_record(random: &mut Random) -> (Vec<u8>, Record) {
    let (n, horizon) = generate::size(random);
    let structure = random.pick(&STRUCTURES);
    let ticket = generate::ticket(structure, n.min(12), horizon, random);
    (writing::ticket(&ticket), generate::foreign_record(ticket, random))
}

fn damaged(trial: &mut Trial) {
    let (ticket, record) = ticket_and_record(&mut trial.random);
    let record_bytes = writing::record(&record);
    for _ in 0..4 {
        let bytes = generate::damaged(&ticket, &mut trial.random);
        trial.rewrite_ticket(&bytes, calls::TICKET);
        let prefer = trial.random.pick(&BOTH);
        trial.plan(prefer, &bytes, ENOUGH);
        let bytes = generate::damaged_record(&record, &mut trial.random);
        let commitment = drawn_commitment(&record, &mut trial.random);
        trial.rewrite_record(&bytes, calls::RECORD);
        trial.commit(&bytes, commitment, ENOUGH);
        view_by_any(trial, &bytes);
    }
    // A record is no ticket, and a ticket no record.
    for prefer in BOTH {
        trial.plan(prefer, &record_bytes, ENOUGH);
    }
    trial.commit(&ticket, Commitment { caller: 0, event: 1, open: 0, close: 0 }, ENOUGH);
    trial.view(&ticket, 0, calls::VIEW);
}

/// A commitment that may be accepted, called by the event's owner as a rule.
fn drawn_commitment(record: &Record, random: &mut Random) -> Commitment {
    let commitment = generate::commitment(record, AGAIN, random);
    generate::called(commitment, record, random)
}

fn prefixes(trial: &mut Trial) {
    let (mut ticket, record) = ticket_and_record(&mut trial.random);
    let mut bytes = writing::record(&record);
    let commitment = drawn_commitment(&record, &mut trial.random);
    ticket.push(trial.random.next() as u8);
    bytes.push(trial.random.next() as u8);
    let steps = 1 + ticket.len() / 200;
    for length in (0..=ticket.len()).rev().step_by(steps) {
        trial.rewrite_ticket(&ticket[..length], calls::TICKET);
        for prefer in BOTH {
            trial.plan(prefer, &ticket[..length], ENOUGH);
        }
    }
    // All that end inside the counts, the record's last 12 bytes, are met.
    let met = |length: &usize| bytes.len() - length <= 13 || (bytes.len() - length) % steps == 0;
    for length in (0..=bytes.len()).rev().filter(met) {
        trial.rewrite_record(&bytes[..length], calls::RECORD);
        trial.commit(&bytes[..length], commitment, ENOUGH);
        trial.view(&bytes[..length], commitment.caller, calls::VIEW);
    }
}

fn lengths(trial: &mut Trial) {
    let (ticket, record) = ticket_and_record(&mut trial.random);
    let bytes = writing::record(&record);
    let commitment = drawn_commitment(&record, &mut trial.random);
    let around = |limit: usize| limit - 3..=limit + 3;
    for out in around(calls::RECORD) {
        for scratch in around(calls::SCRATCH) {
            for prefer in BOTH {
                trial.plan(prefer, &ticket, Lengths { out, scratch });
            }
            trial.commit(&bytes, commitment, Lengths { out, scratch });
        }
        trial.rewrite_record(&bytes, out);
    }
    for out in around(calls::TICKET) {
        trial.rewrite_ticket(&ticket, out);
    }
    for out in around(calls::VIEW) {
        for caller in 0..=DEVICES as u32 {
            trial.view(&bytes, caller, out);
        }
    }
    for out in around(calls::TABLE) {
        let Record { ticket: read, .. } = &record;
        let n = read.events() as u32;
        trial.table(read.horizon, n, &read.rules, out);
        let count = some_stops(n, &mut trial.random);
        trial.table_after(&ticket, count, out);
    }
    for out in [0, 1, bytes.len() - 1, bytes.len(), 4_000] {
        for scratch in [0, 1, 1_824, 8_191, 8_192, 20_000] {
            for prefer in BOTH {
                trial.plan(prefer, &ticket, Lengths { out, scratch });
                trial.plan(prefer, &[], Lengths { out, scratch });
            }
            trial.commit(&bytes, commitment, Lengths { out, scratch });
            trial.commit(&[], commitment, Lengths { out, scratch });
        }
        trial.rewrite_record(&bytes, out);
        trial.rewrite_ticket(&ticket, out);
        trial.view(&bytes, commitment.caller, out);
        trial.view(&[], commitment.caller, out);
    }
}

fn values(trial: &mut Trial) {
    for _ in 0..4 {
        let random = &mut trial.random;
        let (n, horizon) = generate::size(random);
        let structure = random.pick(&STRUCTURES);
        let values = Values::of(&generate::ticket(structure, n, horizon, random), random);
        let length = some_length(calls::TABLE, random);
        let out = some_length(calls::TICKET, random);
        let loose = values.loosened(random);
        trial.table(values.horizon, values.events, &values.rules, length);
        trial.write_ticket(&loose, out);
    }
}

/// Records of any values are written.
fn records(trial: &mut Trial) {
    for _ in 0..4 {
        let random = &mut trial.random;
        let (n, horizon) = generate::size(random);
        let structure = random.pick(&STRUCTURES);
        let ticket = generate::ticket(structure, n, horizon, random);
        let record = generate::foreign_record(ticket, random);
        let values = Values::of(&record.ticket, random);
        let mut loose = loosened_record(values.loosened(random), &record, random);
        if random.chance(50) {
            disturb_windows(&mut loose, random);
        }
        let out = some_length(calls::RECORD, random);
        trial.write_record(&loose, out);
    }
}

/// The program on tickets that it plans and on bytes that it refuses, some of them longer than any ticket.
fn text(trial: &mut Trial, seed: u64) {
    let random = &mut trial.random;
    let (n, horizon) = generate::size(random);
    let structure = STRUCTURES[seed as usize % STRUCTURES.len()];
    let ticket = writing::ticket(&generate::ticket(structure, n, horizon, random));
    let mut longer = ticket.clone();
    longer.resize(random.pick(&[1_585, 1_586, 4_096, 70_000]), random.next() as u8);
    let length = random.below(ticket.len() + 1);
    let damaged = generate::damaged(&ticket, random);
    for prefer in BOTH {
        for bytes in [&ticket[..], &longer, &damaged, &ticket[..length]] {
            trial.printed(prefer, bytes);
        }
    }
}

/// The latest plan of a ticket, again with other lengths, and of the ticket damaged; then commitments on the first.
fn latest(trial: &mut Trial, seed: u64) {
    let random = &mut trial.random;
    let (n, horizon) = generate::size(random);
    let structure = STRUCTURES[seed as usize % STRUCTURES.len()];
    let ticket = writing::ticket(&generate::ticket(structure, n, horizon, random));
    let damaged = generate::damaged(&ticket, random);
    let lengths = some_lengths(random);
    let most = random.pick(&[3, 6, 6, 20]);
    let record = trial.plan(Prefer::Latest, &ticket, ENOUGH);
    trial.plan(Prefer::Latest, &ticket, lengths);
    trial.plan(Prefer::Latest, &damaged, ENOUGH);
    if let Some(record) = record {
        trial.rewrite_record(&record, calls::RECORD);
        commit_on(trial, record, most, 15, AGAIN);
    }
}

fn latest_tiny(trial: &mut Trial) {
    let ticket = writing::ticket(&generate::tiny(&mut trial.random));
    trial.solver = Solver::Exhaustive;
    if let Some(record) = trial.plan(Prefer::Latest, &ticket, ENOUGH) {
        commit_on(trial, record, 4, 20, AGAIN);
    }
}

/// Up to 200 commitments on a ticket of any structure and size.
fn narrowing(trial: &mut Trial, seed: u64) {
    let random = &mut trial.random;
    let (n, horizon) = generate::size(random);
    let structure = STRUCTURES[seed as usize % STRUCTURES.len()];
    let ticket = generate::ticket(structure, n, horizon, random);
    let most = random.pick(&[20, 5 * n, 200]);
    narrow(trial, ticket, most);
}

fn narrowing_tiny(trial: &mut Trial) {
    trial.solver = Solver::Exhaustive;
    let ticket = generate::tiny(&mut trial.random);
    narrow(trial, ticket, 16);
}

/// A run that narrows again and again. It starts from the plan, the latest plan, or a record from elsewhere with a count, of
/// one device or of each, so near the greatest, or 256, that it may be reached.
fn narrow(trial: &mut Trial, ticket: Ticket, most: usize) {
    let random = &mut trial.random;
    let again = random.pick(&[40, 70, 95]);
    let left = random.below(ticket.events() + 2) as u32;
    let start = match random.below(5) {
        0..=1 => trial.plan(Prefer::Earliest, &writing::ticket(&ticket), ENOUGH),
        2 => trial.plan(Prefer::Latest, &writing::ticket(&ticket), ENOUGH),
        _ => generate::fit_windows(&ticket, random).map(|windows| {
            let record = generate::flagged(ticket, windows, random);
            let high = random.pick(&[256, MOST_ACCEPTED, MOST_ACCEPTED]) - left;
            let one = generate::one_high(&record, high, random);
            let counts = if random.chance(60) { one } else { [high; DEVICES] };
            writing::record(&Record { counts, ..record })
        }),
    };
    if let Some(record) = start {
        commit_on(trial, record, most, 25, again);
    }
}

/// A record from elsewhere with one count at the greatest or next to it and the others low. Each of its events commits on it;
/// its counts are damaged; then a run goes on from it.
fn counts(trial: &mut Trial, seed: u64) {
    let random = &mut trial.random;
    let (n, horizon) = generate::size(random);
    let structure = STRUCTURES[seed as usize % STRUCTURES.len()];
    let ticket = generate::ticket(structure, n.min(12), horizon, random);
    let mut record = match generate::fit_windows(&ticket, random) {
        Some(windows) => generate::flagged(ticket, windows, random),
        None => generate::foreign_record(ticket, random),
    };
    let high = random.pick(&[MOST_ACCEPTED - 1, MOST_ACCEPTED]);
    record.counts = generate::one_high(&record, high, random);
    let bytes = writing::record(&record);
    trial.rewrite_record(&bytes, calls::RECORD);
    for k in 0..record.windows.len() {
        let commitment = generate::commitment_at(&record, k, &mut trial.random);
        let commitment = generate::called(commitment, &record, &mut trial.random);
        if let Some(after) = trial.commit(&bytes, commitment, ENOUGH) {
            trial.follows(&record, commitment, &after);
        }
    }
    for _ in 0..4 {
        let damaged = generate::damaged_counts(&record, &mut trial.random);
        let commitment = drawn_commitment(&record, &mut trial.random);
        trial.rewrite_record(&damaged, calls::RECORD);
        trial.commit(&damaged, commitment, ENOUGH);
        view_by_any(trial, &damaged);
    }
    commit_on(trial, bytes, 12, 20, 50);
}

/// The reason of a ticket, again with another length, with the ticket damaged, and with one of the lists damaged.
fn reason(trial: &mut Trial, seed: u64) {
    let random = &mut trial.random;
    let shape = SHAPES[seed as usize % SHAPES.len()];
    let asked = impossible::asked(&impossible::ticket(shape, random), random);
    let damaged = Asked { ticket: generate::damaged(&asked.ticket, random), ..asked.clone() };
    let mut unnamed = asked.clone();
    let list = if random.chance(50) { &mut unnamed.labels } else { &mut unnamed.roster };
    *list = impossible::damaged_list(list, random);
    let length = some_length(calls::REASON, random);
    trial.reason(&asked, calls::REASON);
    trial.reason(&asked, length);
    trial.reason(&damaged, calls::REASON);
    trial.reason(&unnamed, calls::REASON);
}

fn reason_tiny(trial: &mut Trial) {
    trial.solver = Solver::Exhaustive;
    for _ in 0..4 {
        let ticket = impossible::tiny(&SHAPES, &mut trial.random);
        let asked = impossible::asked(&ticket, &mut trial.random);
        let searched = rings::first(&ticket, Solver::Exhaustive);
        let summed = rings::first(&ticket, Solver::Flow);
        let ways = || format!("{ticket:?}: searched {searched:?}, by sums {summed:?}");
        trial.expect(searched == summed, "the model's two ways", ways);
        trial.reason(&asked, calls::REASON);
    }
}

/// Either list or both of them damaged, sometimes the ticket too, or the output too short.
fn reason_lists(trial: &mut Trial, seed: u64) {
    let shape = SHAPES[seed as usize % SHAPES.len()];
    let asked = impossible::asked(&impossible::small(shape, &mut trial.random), &mut trial.random);
    for _ in 0..8 {
        let random = &mut trial.random;
        let mut damaged = asked.clone();
        let which = random.pick(&["labels", "labels", "roster", "roster", "both", "neither"]);
        if which == "labels" || which == "both" {
            damaged.labels = impossible::damaged_list(&asked.labels, random);
        }
        if which == "roster" || which == "both" {
            damaged.roster = impossible::damaged_list(&asked.roster, random);
        }
        if random.chance(15) {
            damaged.ticket = generate::damaged(&asked.ticket, random);
        }
        let length = if random.chance(20) { some_length(calls::REASON, random) } else { calls::REASON };
        trial.reason(&damaged, length);
    }
    // Each list in the other's place.
    let Asked { ticket, labels, roster } = asked;
    trial.reason(&Asked { ticket, labels: roster, roster: labels }, calls::REASON);
}

/// Tables of a ticket after many numbers of stops, again with another output length, and of the ticket damaged.
fn stops(trial: &mut Trial, seed: u64) {
    let random = &mut trial.random;
    let ticket = match random.below(10) {
        0..=1 => impossible::ticket(random.pick(&SHAPES), random),
        2..=3 => generate::far(random),
        _ => {
            let (n, horizon) = generate::size(random);
            generate::ticket(STRUCTURES[seed as usize % STRUCTURES.len()], n, horizon, random)
        }
    };
    let (bytes, n) = (writing::ticket(&ticket), ticket.events() as u32);
    let damaged = generate::damaged(&bytes, random);
    let counts = [(); 2].map(|_| some_stops(n, random));
    let lengths = [(); 2].map(|_| some_length(calls::TABLE, random));
    tables_after(trial, &ticket, 6, &[0, 1, n, n + 1, u32::MAX]);
    trial.table_after(&bytes, counts[0], lengths[0]);
    trial.table_after(&damaged, counts[1], lengths[1]);
}

/// A ticket mended, and what the library's other calls say of it.
fn mend(trial: &mut Trial, ticket: &Ticket) {
    let bytes = writing::ticket(ticket);
    if let Some((mended, list)) = trial.mend(&bytes, LEAST) {
        trial.is_mended(&bytes, &mended, &list);
    }
}

/// A ticket mended, again with its rules in the reverse order, and with outputs of other lengths.
fn mending(trial: &mut Trial, seed: u64) {
    let mut ticket = impossible::ticket(ALL_SHAPES[seed as usize % ALL_SHAPES.len()], &mut trial.random);
    let lengths = some_outputs(&mut trial.random);
    mend(trial, &ticket);
    trial.mend(&writing::ticket(&ticket), lengths);
    ticket.rules.reverse();
    mend(trial, &ticket);
}

fn mending_tiny(trial: &mut Trial) {
    trial.solver = Solver::Exhaustive;
    for _ in 0..4 {
        let ticket = impossible::tiny(&ALL_SHAPES, &mut trial.random);
        mend(trial, &ticket);
    }
}

/// A ticket of few events damaged and cut, each time with the least outputs and with others.
fn mending_bytes(trial: &mut Trial, seed: u64) {
    let shape = ALL_SHAPES[seed as usize % ALL_SHAPES.len()];
    let bytes = writing::ticket(&impossible::small(shape, &mut trial.random));
    for _ in 0..6 {
        let random = &mut trial.random;
        let damaged = generate::damaged(&bytes, random);
        let length = random.below(bytes.len() + 1);
        let lengths = [(); 2].map(|_| some_outputs(random));
        for (bytes, lengths) in [&damaged[..], &bytes[..length]].into_iter().zip(lengths) {
            trial.mend(bytes, LEAST);
            trial.mend(bytes, lengths);
        }
    }
}

fn weights(trial: &mut Trial, seed: u64) {
    let random = &mut trial.random;
    let (n, horizon) = generate::size(random);
    let structure = random.pick(&STRUCTURES);
    let ticket = generate::ticket(structure, n, horizon, random);
    weigh(trial, ticket, seed);
}

fn weights_tiny(trial: &mut Trial, seed: u64) {
    trial.solver = Solver::Exhaustive;
    let ticket = generate::tiny(&mut trial.random);
    weigh(trial, ticket, seed);
}

/// Both plans of a ticket of some devices alone, what the library's other calls say of them, and commitments on them; then
/// commitments on a record of it from elsewhere.
fn weigh(trial: &mut Trial, ticket: Ticket, seed: u64) {
    let devices = DEVICE_SETS[seed as usize % DEVICE_SETS.len()];
    let ticket = generate::owned_by(devices, ticket, &mut trial.random);
    for prefer in BOTH {
        if let Some(record) = trial.plan(prefer, &writing::ticket(&ticket), ENOUGH) {
            trial.is_weighed(prefer, &ticket, &record);
            commit_on(trial, record, 4, 15, AGAIN);
        }
    }
    let record = generate::foreign_record(ticket, &mut trial.random);
    commit_on(trial, writing::record(&record), 3, 10, AGAIN);
}

/// All five parts of a ticket, and what the library's other calls say of them; then a part for any number of a device, with
/// an output of any length.
fn parts_of(trial: &mut Trial, ticket: &Ticket) {
    let bytes = writing::ticket(ticket);
    let parts = (0..DEVICES as u32).map(|device| trial.part(&bytes, device, calls::PART));
    if let Some(parts) = parts.collect::<Vec<_>>().into_iter().collect::<Option<Vec<_>>>() {
        trial.are_parts(ticket, &parts);
    }
    let (device, length) = (some_device(&mut trial.random), some_length(calls::PART, &mut trial.random));
    trial.part(&bytes, device, length);
}

/// A ticket of one of the ten structures or the eleven shapes, with bounds far above the horizon, or with 256 rules, in half
/// of the cases shared out among some devices; then the ticket damaged.
fn parts(trial: &mut Trial, seed: u64) {
    let random = &mut trial.random;
    let (n, horizon) = generate::size(random);
    let mut ticket = match random.below(10) {
        0 => impossible::ticket(ALL_SHAPES[seed as usize % ALL_SHAPES.len()], random),
        1 => generate::far(random),
        2..=3 => generate::full(n, horizon, random),
        _ => generate::ticket(STRUCTURES[seed as usize % STRUCTURES.len()], n, horizon, random),
    };
    if random.chance(50) {
        ticket = generate::owned_by(random.pick(&DEVICE_SETS), ticket, random);
    }
    let damaged = generate::damaged(&writing::ticket(&ticket), random);
    let device = random.below(DEVICES) as u32;
    parts_of(trial, &ticket);
    trial.part(&damaged, device, calls::PART);
}

fn parts_tiny(trial: &mut Trial) {
    trial.solver = Solver::Exhaustive;
    let mut ticket = generate::tiny(&mut trial.random);
    if trial.random.chance(50) {
        ticket = generate::owned_by(trial.random.pick(&DEVICE_SETS), ticket, &mut trial.random);
    }
    for device in 0..DEVICES as u8 {
        let table = parts::table(&ticket, Solver::Flow);
        let by_pairs = table.map(|table| parts::windows(&ticket, device, &table, Solver::Flow));
        let extended = exhaustive::extended(&ticket, device);
        let ways = || format!("part of device {device} of {ticket:?}: searched {extended:?}, by pairs {by_pairs:?}");
        trial.expect(extended == by_pairs, "the model's two ways", ways);
    }
    parts_of(trial, &ticket);
}

/// A ticket of few events damaged, cut and extended, each with an output of the least length for a device that there is,
/// and with any length for any number of a device.
fn parts_bytes(trial: &mut Trial, seed: u64) {
    let shape = ALL_SHAPES[seed as usize % ALL_SHAPES.len()];
    let bytes = writing::ticket(&impossible::small(shape, &mut trial.random));
    for _ in 0..4 {
        let random = &mut trial.random;
        let damaged = generate::damaged(&bytes, random);
        let cut = bytes[..random.below(bytes.len() + 1)].to_vec();
        let more = random.pick(&[1, 2, 9, 362, 2_000]);
        let extended = [&bytes[..], &vec![random.next() as u8; more]].concat();
        for bytes in [damaged, cut, extended] {
            let device = trial.random.below(DEVICES) as u32;
            trial.part(&bytes, device, calls::PART);
            let (device, length) = (some_device(&mut trial.random), some_length(calls::PART, &mut trial.random));
            trial.part(&bytes, device, length);
        }
    }
}

fn parts_separate(trial: &mut Trial) {
    let random = &mut trial.random;
    let (n, horizon) = generate::size(random);
    let ticket = generate::separate(n, horizon, random);
    parts_of(trial, &ticket);
}

/// Two cases in three have 40 events, and half of these 256 rules.
fn parts_one_device(trial: &mut Trial, seed: u64) {
    let random = &mut trial.random;
    let (n, horizon) = generate::size(random);
    let ticket = match seed % 3 {
        0 => generate::full(40, horizon, random),
        1 => generate::ticket(random.pick(&STRUCTURES), 40, horizon, random),
        _ => generate::ticket(random.pick(&STRUCTURES), n, horizon, random),
    };
    let device = random.below(DEVICES) as u8;
    let ticket = generate::owned_by(&[device], ticket, random);
    parts_of(trial, &ticket);
}

/// A ticket of one of the ten structures, in half of the cases shared out among some devices.
fn finer(trial: &mut Trial) {
    let random = &mut trial.random;
    let (n, horizon) = generate::size(random);
    let structure = random.pick(&STRUCTURES);
    let mut ticket = generate::ticket(structure, n, horizon, random);
    if random.chance(50) {
        ticket = generate::owned_by(random.pick(&DEVICE_SETS), ticket, random);
    }
    refine(trial, ticket);
}

fn finer_tiny(trial: &mut Trial) {
    trial.solver = Solver::Exhaustive;
    let ticket = generate::tiny_of(&generate::TINIEST, &mut trial.random);
    refine(trial, ticket);
}

/// Both plans of a ticket, commitments on them, and commitments on a record of it from elsewhere with fit windows, each held
/// against finer grids.
fn refine(trial: &mut Trial, ticket: Ticket) {
    for prefer in BOTH {
        let record = trial.plan(prefer, &writing::ticket(&ticket), ENOUGH);
        trial.wins_nothing(Allowed::Any(&ticket), prefer);
        if let Some(record) = record {
            refine_commitments(trial, record);
        }
    }
    if let Some(windows) = generate::fit_windows(&ticket, &mut trial.random) {
        let record = generate::flagged(ticket, windows, &mut trial.random);
        refine_commitments(trial, writing::record(&record));
    }
}

/// Up to 3 commitments that may be accepted, one after the other.
fn refine_commitments(trial: &mut Trial, start: Vec<u8>) {
    let mut bytes = start;
    for _ in 0..3 {
        let Ok(record) = reading::record(&bytes) else {
            trial.report.differences.push("an unreadable record was written".to_string());
            return;
        };
        if record.windows.is_empty() {
            return;
        }
        let commitment = drawn_commitment(&record, &mut trial.random);
        let after = trial.commit(&bytes, commitment, ENOUGH);
        trial.wins_nothing(Allowed::After(&record, commitment), Prefer::Earliest);
        let Some(after) = after else { continue };
        trial.follows(&record, commitment, &after);
        bytes = after;
    }
}

/// A ticket of one of the ten structures, in half of the cases shared out among some devices.
fn rights(trial: &mut Trial, seed: u64) {
    let random = &mut trial.random;
    let (n, horizon) = generate::size(random);
    let mut ticket = generate::ticket(STRUCTURES[seed as usize % STRUCTURES.len()], n, horizon, random);
    if random.chance(50) {
        ticket = generate::owned_by(random.pick(&DEVICE_SETS), ticket, random);
    }
    call_on_both(trial, ticket);
}

fn rights_tiny(trial: &mut Trial) {
    trial.solver = Solver::Exhaustive;
    let ticket = generate::tiny(&mut trial.random);
    call_on_both(trial, ticket);
}

/// Calls on the plan of a ticket, or its latest one, and on a record of it from elsewhere, which need not be fit.
fn call_on_both(trial: &mut Trial, ticket: Ticket) {
    let prefer = trial.random.pick(&BOTH);
    if let Some(record) = trial.plan(prefer, &writing::ticket(&ticket), ENOUGH) {
        call_on(trial, record, 8);
    }
    let record = generate::foreign_record(ticket, &mut trial.random);
    call_on(trial, writing::record(&record), 4);
}

/// This many commitments by any caller, one after the other; the start and each record after it viewed by all.
fn call_on(trial: &mut Trial, start: Vec<u8>, count: usize) {
    let Ok(mut record) = reading::record(&start) else {
        trial.report.differences.push("an unreadable record was written".to_string());
        return;
    };
    let mut bytes = start;
    view_by_all(trial, &bytes);
    for _ in 0..count {
        let commitment = any_commitment(&record, &mut trial.random);
        let lengths = if trial.random.chance(80) { ENOUGH } else { some_lengths(&mut trial.random) };
        let Some(after) = trial.commit(&bytes, commitment, lengths) else { continue };
        let Some(next) = trial.follows(&record, commitment, &after) else { return };
        (record, bytes) = (next, after);
        view_by_all(trial, &bytes);
    }
}

/// A commitment, three in ten times with something wrong beside its caller; this is the event's owner every other time, and
/// else any number.
fn any_commitment(record: &Record, random: &mut Random) -> Commitment {
    let commitment = if random.chance(70) {
        generate::commitment(record, AGAIN, random)
    } else {
        generate::refused_commitment(record, &vec![whole_session(record); record.windows.len()], random)
    };
    if random.chance(50) {
        commitment
    } else {
        Commitment { caller: generate::some_caller(commitment.caller, random), ..commitment }
    }
}

/// Views of these bytes by the five devices and by 5, and what the bytes say of them; then one by any number, with an output
/// of any length.
fn view_by_all(trial: &mut Trial, record: &[u8]) {
    let views: Vec<Vec<u8>> =
        (0..=DEVICES as u32).filter_map(|caller| trial.view(record, caller, calls::VIEW)).collect();
    if views.len() == DEVICES {
        trial.are_views(record, &views);
    }
    let device = trial.random.below(DEVICES) as u32;
    let caller = generate::some_caller(device, &mut trial.random);
    let length = some_length(calls::VIEW, &mut trial.random);
    trial.view(record, caller, length);
}

/// A record of up to 6 events, fit or not, with a full count in some cases: as it is, damaged, cut and extended, each with
/// commitments by any caller and with views, every other time with enough memory.
fn rights_bytes(trial: &mut Trial, seed: u64) {
    let random = &mut trial.random;
    let (n, (_, horizon)) = (random.below(7), generate::size(random));
    let ticket = generate::ticket(STRUCTURES[seed as usize % STRUCTURES.len()], n, horizon, random);
    let mut record = generate::foreign_record(ticket, random);
    if random.chance(40) {
        record.counts = generate::one_high(&record, MOST_ACCEPTED, random);
    }
    let bytes = writing::record(&record);
    for _ in 0..3 {
        let random = &mut trial.random;
        let damaged = generate::damaged_record(&record, random);
        let cut = bytes[..random.below(bytes.len() + 1)].to_vec();
        let more = random.pick(&[1, 2, 9, 402, 2_000]);
        let extended = [&bytes[..], &vec![random.next() as u8; more]].concat();
        for bytes in [&bytes, &damaged, &cut, &extended] {
            let random = &mut trial.random;
            let commitment = any_commitment(&record, random);
            let lengths = if random.chance(50) { ENOUGH } else { some_lengths(random) };
            trial.commit(bytes, commitment, lengths);
            trial.view(bytes, commitment.caller, calls::VIEW);
            view_by_any(trial, bytes);
        }
    }
}

/// A record with fit windows, of a run or from elsewhere, and another one that is alike for one of the devices that do not see
/// all: its view, and the numbers of its commitments to events of its own, of others and none, inside and outside of windows
/// of either record.
fn rights_pairs(trial: &mut Trial, seed: u64) {
    let device = (seed % DATABASE as u64) as u8;
    let random = &mut trial.random;
    let (n, horizon) = generate::size(random);
    let ticket = generate::ticket(random.pick(&STRUCTURES), n, horizon, random);
    let others = [device, random.below(DEVICES) as u8, random.below(DEVICES) as u8];
    let ticket = if random.chance(50) { generate::owned_by(&others, ticket, random) } else { ticket };
    let Some(mut first) = fit_record(trial, ticket) else { return };
    let random = &mut trial.random;
    if random.chance(30) {
        first.counts[device as usize] = MOST_ACCEPTED;
    }
    let second = generate::alike(&first, device, random);
    let bytes = [&first, &second].map(writing::record);
    let pair = [&bytes[0][..], &bytes[1]];
    trial.expect(pair[0] != pair[1], "a pair is of two records", || hex(pair[0]));
    trial.are_viewed_alike(pair, device as u32);
    let own: Vec<usize> = (0..first.windows.len()).filter(|&k| first.ticket.owners[k] == device).collect();
    for count in 0..6 {
        let random = &mut trial.random;
        let of = random.pick(&[&first, &second]);
        let session = vec![whole_session(of); of.windows.len()];
        let drawn = match count {
            0 if !own.is_empty() => generate::commitment_at(of, random.pick(&own), random),
            1 if !own.is_empty() => generate::refused_at(of, &session, random.pick(&own), random),
            2..=3 => generate::refused_commitment(of, &session, random),
            _ => generate::commitment(of, AGAIN, random),
        };
        trial.are_answered_alike(pair, Commitment { caller: device as u32, ..drawn });
    }
}

/// A record of this ticket with fit windows: a plan with up to 3 commitments, or one from elsewhere. None without a schedule.
fn fit_record(trial: &mut Trial, ticket: Ticket) -> Option<Record> {
    if trial.random.chance(50) {
        let windows = generate::fit_windows(&ticket, &mut trial.random)?;
        return Some(generate::flagged(ticket, windows, &mut trial.random));
    }
    let prefer = trial.random.pick(&BOTH);
    let mut bytes = trial.plan(prefer, &writing::ticket(&ticket), ENOUGH)?;
    let mut record = reading::record(&bytes).ok()?;
    for _ in 0..trial.random.below(4) {
        let commitment = generate::commitment(&record, AGAIN, &mut trial.random);
        if let Some(after) = trial.commit(&bytes, commitment, ENOUGH) {
            record = trial.follows(&record, commitment, &after)?;
            bytes = after;
        }
    }
    Some(record)
}

/// What a ticket is made of, not all of it in range.
struct Values {
    horizon: u32,
    events: u32,
    owners: [u8; 40],
    rules: Vec<Rule>,
}

impl Values {
    /// Those of this ticket, up to two of them at or past a limit.
    fn of(ticket: &Ticket, random: &mut Random) -> Values {
        let mut owners = [0; 40];
        owners[..ticket.events()].copy_from_slice(&ticket.owners);
        let (horizon, events) = (ticket.horizon, ticket.events() as u32);
        let mut values = Values { horizon, events, owners, rules: ticket.rules.clone() };
        for _ in 0..random.below(3) {
            values.disturb(random);
        }
        values
    }

    /// One value at or past a limit.
    fn disturb(&mut self, random: &mut Random) {
        let n = self.events as usize;
        match random.below(7) {
            0 => self.horizon = random.pick(&[1_000_000, 1_000_001, 16_777_216, u32::MAX]),
            1 => self.events = random.pick(&[0, 39, 40, 41, 255, 256, 65_536, u32::MAX]),
            2 => self.owners[random.below(40)] = random.pick(&[4, 5, 255]),
            3 => {
                let rule = Rule { from: 0, to: 1, bound: 1_000_000 };
                self.rules.resize(random.pick(&[255, 256, 257, 300]), rule);
            }
            _ if self.rules.is_empty() => {}
            kind => {
                let k = random.below(self.rules.len());
                let rule = &mut self.rules[k];
                let after = (n + 1).min(255) as u8;
                match kind {
                    4 => rule.from = random.pick(&[0, n.min(255) as u8, after, 255]),
                    5 => rule.to = random.pick(&[rule.from, after, 255]),
                    _ => rule.bound = random.pick(&[-1_000_000, -1_000_001, 1_000_001, 1_000_000, i32::MIN, i32::MAX]),
                }
            }
        }
    }

    /// In arrays; by chance the count of rules is not that of the list, and places past it are not 0.
    fn loosened(&self, random: &mut Random) -> Loose {
        let listed = self.rules.len() as u32;
        let count = if random.chance(90) { listed } else { random.pick(&[0, 256, 257, 65_536, u32::MAX]) };
        let rest = random.pick(&[0, 0, 1, 255]);
        let mut loose = Loose {
            horizon: self.horizon,
            events: self.events,
            owners: self.owners,
            rules: count,
            from: [rest; 256],
            to: [rest; 256],
            bound: [(rest as i32).wrapping_mul(-9_000_000); 256],
        };
        for (k, rule) in self.rules.iter().take(256).enumerate() {
            loose.from[k] = rule.from;
            loose.to[k] = rule.to;
            loose.bound[k] = rule.bound;
        }
        loose
    }
}

/// Windows and counts of a record beside these values; by chance places past the windows are not 0, and there are more or
/// fewer than five counts.
fn loosened_record(ticket: Loose, record: &Record, random: &mut Random) -> LooseRecord {
    let rest = random.pick(&[0, 0, 1, 255]);
    let mut loose = LooseRecord {
        ticket,
        flags: [rest; 40],
        opens: [rest as u32; 40],
        closes: [rest as u32; 40],
        counts: record.counts.to_vec(),
    };
    if random.chance(20) {
        loose.counts.resize(random.below(9), rest as u32);
    }
    for (k, (window, &committed)) in record.windows.iter().zip(&record.committed).enumerate() {
        loose.flags[k] = committed as u8;
        loose.opens[k] = window.open;
        loose.closes[k] = window.close;
    }
    loose
}

/// One value after the ticket at or past a limit, or the events of one device committed and no others.
fn disturb_windows(loose: &mut LooseRecord, random: &mut Random) {
    let horizon = loose.ticket.horizon;
    let events = (loose.ticket.events as usize).clamp(1, 40);
    let k = random.below(events);
    let owners = loose.ticket.owners;
    match random.below(8) {
        0 => loose.flags[k] = random.pick(&[0, 1, 2, 255]),
        1 => loose.opens[k] = random.pick(&[0, loose.closes[k], loose.closes[k].saturating_add(1), u32::MAX]),
        2 => loose.closes[k] = random.pick(&[0, loose.opens[k], loose.opens[k].saturating_sub(1)]),
        3 => loose.closes[k] = random.pick(&[horizon, horizon.saturating_add(1), u32::MAX]),
        4..=5 => {
            let device = random.below(DEVICES);
            let set = flags(&owners, &loose.flags.map(|flag| flag == 1)[..events])[device];
            let below = set.saturating_sub(1);
            let values = [0, below, below, set, set + 65_536, MOST_ACCEPTED, MOST_ACCEPTED + 1, u32::MAX];
            loose.counts.resize(DEVICES, 0);
            loose.counts[device] = random.pick(&values);
        }
        6 => {
            loose.flags[k] = 1 - loose.flags[k].min(1);
            if let Some(count) = loose.counts.get_mut(owners[k] as usize) {
                *count += random.below(2) as u32;
            }
        }
        _ => {
            // The device's count is that of its flags or one below, which is no less than the others' flags.
            for (flag, owner) in loose.flags.iter_mut().zip(owners).take(events) {
                *flag = (owner == owners[k]) as u8;
            }
            let set = loose.flags[..events].iter().filter(|&&flag| flag == 1).count() as u32;
            if let Some(count) = loose.counts.get_mut(owners[k] as usize) {
                *count = set - random.below(2) as u32;
            }
        }
    }
}

/// A number of stops for n events, every third time at a limit or past all.
fn some_stops(n: u32, random: &mut Random) -> u32 {
    match random.below(3) {
        0 => random.pick(&[0, 1, n, n + 1, n + 2, 256, 65_536, u32::MAX]),
        _ => random.below(n as usize + 2) as u32,
    }
}

/// A number for a device, three in ten times above 4.
fn some_device(random: &mut Random) -> u32 {
    match random.below(10) {
        0 => 5,
        1 => random.pick(&[6, 40, 255, 256, 257, 260]),
        2 => random.pick(&[65_536, 0x0100_0000, 0x7fff_ffff, 0x8000_0000, u32::MAX]),
        _ => random.below(DEVICES) as u32,
    }
}

/// The least length, one more or less, or far from it.
fn some_length(least: usize, random: &mut Random) -> usize {
    match random.below(10) {
        0 => least - 1,
        1 => least + 1,
        2 => least + random.below(500),
        3 => random.below(least),
        _ => least,
    }
}

fn some_lengths(random: &mut Random) -> Lengths {
    Lengths { out: some_length(calls::RECORD, random), scratch: some_scratch(random) }
}

/// Half of those far above the least are 8,192, the least before 02, change 9.
fn some_scratch(random: &mut Random) -> usize {
    match some_length(calls::SCRATCH, random) {
        length if length > calls::SCRATCH + 1 && length % 2 == 0 => 8_192,
        length => length,
    }
}

fn some_outputs(random: &mut Random) -> Outputs {
    Outputs { out: some_length(calls::TICKET, random), dropped: some_length(calls::DROPPED, random) }
}
