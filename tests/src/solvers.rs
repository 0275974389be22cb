//! The model against itself: exhaustive search and flow on tiny tickets and records, tables by enumeration
//! and by shortest paths, the latest plan against the mirror of 02 on tickets of all sizes, rings out of all walks and by
//! least sums of walks, shortest paths over stops in rounds and out of all paths, mending by schedules and by rings, parts by
//! pairs, by flow and by enumeration, and bytes that come back from reading and writing.

use crate::generate::{self, STRUCTURES};
use crate::impossible::{self, ALL_SHAPES, SHAPES};
use crate::mirror;
use crate::model::calls::{self, Outcome};
use crate::model::{distances, exhaustive, mending, parts, reading, reason, rings, stops, writing};
use crate::model::{Prefer, Solver, Ticket, BOTH, DEVICES};
use crate::random::Random;

fn same(seed: u64, what: &str, by: impl Fn(Solver) -> Outcome, differences: &mut Vec<String>) {
    let (searched, solved) = (by(Solver::Exhaustive), by(Solver::Flow));
    if searched != solved {
        differences.push(format!("{what} at seed {seed}: searched {searched:?}, by flow {solved:?}"));
    }
}

/// The latest plan by distances from session start in the residual network against that by mirroring, and the mirror of the
/// mirror against the ticket.
fn mirrored(seed: u64, ticket: &Ticket, differences: &mut Vec<String>) {
    let by_flow = ticket.best(&ticket.any_windows(), Prefer::Latest, Solver::Flow);
    let by_mirror = mirror::latest(ticket);
    if by_flow != by_mirror {
        differences.push(format!("latest plan at seed {seed}: by flow {by_flow:?}, by mirror {by_mirror:?}"));
    }
    if mirror::ticket(&mirror::ticket(ticket)) != *ticket {
        differences.push(format!("mirrored twice at seed {seed}"));
    }
}

/// The first ring by least sums of walks against that out of all walks, if these are few; and whether there is one at all.
fn ringed(seed: u64, ticket: &Ticket, tiny: bool, differences: &mut Vec<String>) {
    let summed = rings::first(ticket, Solver::Flow);
    let possible = if tiny { exhaustive::has_schedule(ticket) } else { distances::has_schedule(ticket) };
    if summed.is_none() != possible {
        differences.push(format!("ring at seed {seed}: {summed:?}, schedule: {possible}"));
    }
    if tiny || summed.as_ref().is_some_and(|ring| ring.len() <= 3) {
        let searched = rings::first(ticket, Solver::Exhaustive);
        if searched != summed {
            differences.push(format!("ring at seed {seed}: searched {searched:?}, by sums {summed:?}"));
        }
    }
}

/// The names that are written are read again, and the ring's numbers and bounds from its text.
fn reworded(seed: u64, ticket: &Ticket, random: &mut Random, differences: &mut Vec<String>) {
    let asked = impossible::asked(ticket, random);
    let steps = rings::numbered(ticket);
    let ring = rings::first(ticket, Solver::Flow).unwrap_or_default();
    let lists = [(&asked.labels, ticket.events()), (&asked.roster, DEVICES)];
    let [Ok(labels), Ok(roster)] = lists.map(|(list, count)| reason::names(list, count)) else {
        return differences.push(format!("names read again at seed {seed}"));
    };
    let said: Vec<(usize, i64)> = ring.iter().map(|&number| (number, steps[number - 1].bound)).collect();
    let text = reason::text(ticket, &steps, &ring, &labels, &roster);
    if !ring.is_empty() && reason::read(&text) != Some(said) {
        differences.push(format!("text read again at seed {seed}"));
    }
}

/// Shortest paths after each number of stops, in rounds against out of all paths; after all stops also against the table.
fn stopped(seed: u64, ticket: &Ticket, table: Option<Vec<Vec<i64>>>, differences: &mut Vec<String>) {
    let Some(table) = table else { return };
    let finished: stops::Sums = table.into_iter().map(|row| row.into_iter().map(Some).collect()).collect();
    let rules = ticket.all_rules();
    for count in 0..=ticket.events() as u32 + 2 {
        let is_stop = stops::taken(ticket.events(), count);
        let by = |solver: Solver| stops::sums(&rules, &is_stop, solver);
        let (searched, summed) = (by(Solver::Exhaustive), by(Solver::Flow));
        if searched != summed {
            differences.push(format!("{count} stops at seed {seed}: searched {searched:?}, in rounds {summed:?}"));
        }
        if count as usize > ticket.events() && summed != finished {
            differences.push(format!("all stops at seed {seed}: {summed:?}, table {finished:?}"));
        }
    }
}

/// Mending with each step decided by shortest paths against by the lack of a ring; of tiny tickets also by enumeration.
fn mended(seed: u64, ticket: &Ticket, tiny: bool, differences: &mut Vec<String>) {
    let by_paths = mending::walked(ticket, distances::has_schedule);
    let by_rings = mending::walked(ticket, |kept| rings::first(kept, Solver::Flow).is_none());
    if by_paths != by_rings {
        differences.push(format!("mending at seed {seed}: by paths {by_paths:?}, by rings {by_rings:?}"));
    }
    if tiny && by_paths != mending::walked(ticket, exhaustive::has_schedule) {
        differences.push(format!("mending at seed {seed}: by paths {by_paths:?}, by enumeration another"));
    }
}

/// Each device's part by pairs against by flow; of tiny tickets also by enumeration, with distances and without.
fn parted(seed: u64, ticket: &Ticket, tiny: bool, differences: &mut Vec<String>) {
    let Some(table) = distances::table(ticket) else { return };
    for device in 0..DEVICES as u8 {
        let by_pairs = Some(parts::windows(ticket, device, &table, Solver::Flow));
        let mut ways = vec![("flow", parts::by_flow(ticket, device, &table))];
        if tiny {
            ways.push(("enumeration", Some(parts::windows(ticket, device, &table, Solver::Exhaustive))));
            ways.push(("schedules of the whole", exhaustive::extended(ticket, device)));
        }
        for (way, windows) in ways.into_iter().filter(|(_, windows)| *windows != by_pairs) {
            differences.push(format!("part {device} at seed {seed}: by pairs {by_pairs:?}, by {way} {windows:?}"));
        }
    }
}

/// Rings, their texts, and mending, of tickets most of which have no schedule.
fn without_schedule(seed: u64, random: &mut Random, differences: &mut Vec<String>) {
    ringed(seed, &impossible::tiny(&SHAPES, random), true, differences);
    let larger = impossible::ticket(SHAPES[seed as usize % SHAPES.len()], random);
    ringed(seed, &larger, false, differences);
    reworded(seed, &larger, random, differences);
    mended(seed, &impossible::tiny(&ALL_SHAPES, random), true, differences);
    mended(seed, &impossible::small(ALL_SHAPES[seed as usize % ALL_SHAPES.len()], random), false, differences);
}

/// How many tickets and records were tried, and where the ways differ.
pub fn compare(first: u64, count: u64) -> (u64, Vec<String>) {
    let mut differences = Vec::new();
    let mut tried = 0;
    for seed in first..first + count {
        let random = &mut Random::new(seed);
        let ticket = generate::tiny(random);
        let bytes = writing::ticket(&ticket);
        for prefer in BOTH {
            same(seed, "plan", |solver| calls::plan(&bytes, prefer, solver), &mut differences);
        }
        mirrored(seed, &ticket, &mut differences);
        let table = exhaustive::table(&ticket);
        if table != distances::table(&ticket) {
            differences.push(format!("table at seed {seed}"));
        }
        stopped(seed, &ticket, table, &mut differences);
        parted(seed, &ticket, true, &mut differences);
        if reading::ticket(&bytes).as_ref() != Ok(&ticket) {
            differences.push(format!("ticket read again at seed {seed}"));
        }
        let mut record = generate::foreign_record(ticket, random);
        for _ in 0..4 {
            tried += 1;
            let bytes = writing::record(&record);
            if reading::record(&bytes).as_ref() != Ok(&record) {
                differences.push(format!("record read again at seed {seed}"));
            }
            let commitment = generate::commitment(&record, 50, random);
            same(seed, "commitment", |solver| calls::commit(&bytes, commitment, solver), &mut differences);
            if let Ok((next, _)) = calls::commit(&bytes, commitment, Solver::Flow) {
                record = next;
            }
        }
        let (n, horizon) = generate::size(random);
        let structure = STRUCTURES[seed as usize % STRUCTURES.len()];
        let larger = generate::ticket(structure, n, horizon, random);
        mirrored(seed, &larger, &mut differences);
        parted(seed, &larger, false, &mut differences);
        without_schedule(seed, random, &mut differences);
        let small = generate::ticket(structure, random.below(7), horizon, random);
        stopped(seed, &small, distances::table(&small), &mut differences);
        let device = random.below(DEVICES) as u8;
        let alone = generate::owned_by(&[device], generate::full(n, horizon, random), random);
        parted(seed, &alone, false, &mut differences);
        tried += 8;
    }
    (tried, differences)
}
