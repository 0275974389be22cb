//! Compares the library with another implementation of document 01. See docs/TESTING.md.

mod cases;
mod counts_faults;
mod faults;
mod generate;
mod grid_faults;
mod impossible;
mod lent;
mod library;
#[cfg(linked)]
mod linked;
mod mending_faults;
mod mirror;
mod model;
mod narrowing_faults;
mod parts_faults;
mod random;
mod reason_faults;
mod rights_faults;
mod scratch_faults;
mod script;
mod solvers;
mod stop_faults;
mod stored;
mod trial;
mod weight_faults;

use cases::{Kind, Subject, KINDS};
use counts_faults::COUNTS_FAULTS;
use faults::{Fault, Faulty, FAULTS, GIVING_LESS, TELLING};
use grid_faults::{FaultyGrid, GRID_FAULTS};
use library::Library;
use mending_faults::MENDING_FAULTS;
use model::finer::{Finer, Grid};
use model::Prefer;
use narrowing_faults::NARROWING_FAULTS;
use parts_faults::{LINE_FAULTS, PART_FAULTS};
use reason_faults::REASON_FAULTS;
use rights_faults::{CALL_FAULTS, VIEW_FAULTS};
use scratch_faults::{CALLS, SCRATCH_FAULTS};
use std::io::Read;
use std::sync::atomic::{AtomicU64, Ordering};
use std::sync::Mutex;
use std::time::Instant;
use stop_faults::STOP_FAULTS;
use trial::{Report, NUMBERS, TELLS, WINS};
use weight_faults::WEIGHT_FAULTS;

/// How many seeds of each kind the quick part tries.
const QUICK: [(Kind, u64); 35] = [
    (Kind::Tiny, 3_000),
    (Kind::Structures, 3_000),
    (Kind::Runs, 100),
    (Kind::Foreign, 5_000),
    (Kind::Damaged, 5_000),
    (Kind::Prefixes, 60),
    (Kind::Lengths, 12),
    (Kind::Values, 4_000),
    (Kind::Records, 4_000),
    (Kind::Text, 150),
    (Kind::Latest, 1_500),
    (Kind::LatestTiny, 2_500),
    (Kind::Reason, 9_000),
    (Kind::ReasonTiny, 4_000),
    (Kind::ReasonLists, 6_000),
    (Kind::Stops, 3_000),
    (Kind::Narrowing, 250),
    (Kind::NarrowingTiny, 2_000),
    (Kind::Counts, 1_500),
    (Kind::Mending, 5_000),
    (Kind::MendingTiny, 4_000),
    (Kind::MendingBytes, 2_000),
    (Kind::Weights, 1_800),
    (Kind::WeightsTiny, 2_700),
    (Kind::Parts, 2_000),
    (Kind::PartsTiny, 2_500),
    (Kind::PartsBytes, 2_000),
    (Kind::PartsSeparate, 1_000),
    (Kind::PartsOneDevice, 600),
    (Kind::Finer, 400),
    (Kind::FinerTiny, 500),
    (Kind::Rights, 600),
    (Kind::RightsTiny, 1_000),
    (Kind::RightsBytes, 1_500),
    (Kind::RightsPairs, 800),
];

const USAGE: &str = "\
tests/run quick                      stored cases and some thousand seeds: the gate's part
tests/run long SEED COUNT [THREADS [KIND ..]]
                                     seeds from SEED on until COUNT calls are made, of all kinds or of those named
tests/run one KIND SEED              one case: tiny structures runs foreign damaged prefixes lengths values records text
                                     latest latest-tiny reason reason-tiny reason-lists stops narrowing
                                     narrowing-tiny counts mending mending-tiny mending-bytes weights weights-tiny
                                     parts parts-tiny parts-bytes parts-separate parts-one-device finer finer-tiny
                                     rights rights-tiny rights-bytes rights-pairs
tests/run solvers SEED COUNT         the solvers of the model against each other
tests/run self-check                 libraries and finer grids with a planted fault: each has to be caught
tests/run script                     what the model answers to the stored script crates/cases/stdin
tests/run runs                       tests/runs.txt anew: what the library answers to the stored runs
tests/run print [latest] <TICKET     what the program has to print, by the model";

#[cfg(linked)]
fn library() -> &'static dyn Library {
    &linked::Linked
}

#[cfg(not(linked))]
fn library() -> &'static dyn Library {
    println!("no library is linked: the model stands in for it");
    &library::Model
}

/// Cases of a part, its calls, and these by the number answered and by kind.
struct Tally {
    passed: u64,
    failed: u64,
    calls: u64,
    numbers: [u64; NUMBERS],
    kinds: [u64; KINDS.len()],
}

impl Default for Tally {
    fn default() -> Tally {
        Tally { passed: 0, failed: 0, calls: 0, numbers: [0; NUMBERS], kinds: [0; KINDS.len()] }
    }
}

impl Tally {
    fn add(&mut self, name: &str, report: Report) {
        self.calls += report.calls;
        for (sum, count) in self.numbers.iter_mut().zip(report.numbers) {
            *sum += count;
        }
        if report.differences.is_empty() {
            self.passed += 1;
            return;
        }
        self.failed += 1;
        if self.failed <= 5 {
            for difference in report.differences.iter().take(3) {
                println!("DIFFERENCE in {name}: {difference}");
            }
        }
    }

    fn join(&mut self, other: Tally) {
        self.passed += other.passed;
        self.failed += other.failed;
        self.calls += other.calls;
        for (sum, count) in self.numbers.iter_mut().zip(other.numbers) {
            *sum += count;
        }
        for (sum, count) in self.kinds.iter_mut().zip(other.kinds) {
            *sum += count;
        }
    }

    /// How many calls were answered with 0, 1, .., 20.
    fn numbers_line(&self) -> String {
        let counts = self.numbers.iter().enumerate().map(|(number, count)| format!("{number}: {count}"));
        format!("calls by number: {}", counts.collect::<Vec<_>>().join(", "))
    }

    fn kinds_line(&self) -> String {
        let counts = KINDS.iter().zip(self.kinds).map(|(kind, count)| format!("{}: {count}", kind.name()));
        format!("calls by kind: {}", counts.collect::<Vec<_>>().join(", "))
    }

    /// A case of its own: every one of these numbers was answered.
    fn reached(&mut self, name: &str, numbers: &[usize]) {
        let unseen = numbers.iter().filter(|&&number| self.numbers[number] == 0);
        let differences = unseen.map(|number| format!("no call is answered {number}")).collect();
        self.add(name, Report { differences, ..Report::default() });
    }

    fn last_line(&self) -> i32 {
        println!("{} passed, {} failed", self.passed, self.failed);
        (self.failed > 0) as i32
    }
}

/// Runs the cases of `seeds`, each of the kind that `kind` gives, on some threads.
fn try_seeds(
    library: &dyn Library,
    seeds: std::ops::Range<u64>,
    threads: usize,
    kind: impl Fn(u64) -> Kind + Sync,
) -> Tally {
    let next = AtomicU64::new(seeds.start);
    let tally = Mutex::new(Tally::default());
    std::thread::scope(|scope| {
        for _ in 0..threads {
            scope.spawn(|| loop {
                let seed = next.fetch_add(1, Ordering::Relaxed);
                if seed >= seeds.end {
                    return;
                }
                let result = cases::run(kind(seed), seed, library);
                let name = format!("one {} {seed}", kind(seed).name());
                let mut tally = tally.lock().unwrap();
                tally.kinds[kind(seed) as usize] += result.calls;
                tally.add(&name, result);
            });
        }
    });
    tally.into_inner().unwrap()
}

fn stored_cases(library: &dyn Library) -> Tally {
    let mut tally = Tally::default();
    for case in &stored::CASES {
        tally.add(case.0, stored::run(case, library));
    }
    tally
}

fn quick(library: &dyn Library) -> i32 {
    let start = Instant::now();
    let mut all = stored_cases(library);
    println!("stored cases: {} calls", all.calls);
    let (agreed, differences) = solvers::compare(1, 1_500);
    println!("solvers of the model: {agreed} tickets and records");
    all.add("solvers", Report { differences, ..Report::default() });
    let (lines, differences) = script::compare();
    println!("stored script by the model: {lines} lines");
    all.add("stored script", Report { differences, ..Report::default() });
    for (kind, count) in QUICK {
        let begun = Instant::now();
        let mut tally = try_seeds(library, 1..count + 1, 2, |_| kind);
        let seconds = begun.elapsed().as_secs_f64();
        println!("{}: {count} cases, {} calls, {} failed, {seconds:.1} s", kind.name(), tally.calls, tally.failed);
        if !kind.numbers().is_empty() {
            println!("{}, {}", kind.name(), tally.numbers_line());
            tally.reached(kind.name(), kind.numbers());
        }
        all.join(tally);
    }
    println!("{}", all.numbers_line());
    // 11 and 12 no longer occur.
    let numbers: Vec<usize> = (0..NUMBERS).filter(|number| ![11, 12].contains(number)).collect();
    all.reached("all kinds", &numbers);
    println!("{} calls in {:.1} s", all.calls, start.elapsed().as_secs_f64());
    all.last_line()
}

/// Blocks of seeds until enough calls are made, each seed of one of these kinds in turn if there are any; after each block a
/// line to go on from.
fn long(library: &dyn Library, seed: u64, count: u64, threads: usize, kinds: &[Kind]) -> i32 {
    const BLOCK: u64 = 5_000;
    let start = Instant::now();
    let mut all = Tally::default();
    let mut next = seed;
    let kind = |seed: u64| if kinds.is_empty() { Kind::at(seed) } else { kinds[seed as usize % kinds.len()] };
    let named: String = kinds.iter().map(|kind| format!(" {}", kind.name())).collect();
    while all.calls < count && all.failed == 0 {
        all.join(try_seeds(library, next..next + BLOCK, threads, kind));
        next += BLOCK;
        let left = count.saturating_sub(all.calls);
        let seconds = start.elapsed().as_secs_f64();
        println!(
            "{} calls, {} failed, {seconds:.0} s; go on with: tests/run long {next} {left} {threads}{named}",
            all.calls, all.failed
        );
    }
    println!("{}", all.kinds_line());
    println!("{}", all.numbers_line());
    println!("seeds {seed} to {}: {} calls, {} differences", next - 1, all.calls, all.failed);
    all.last_line()
}

/// Every planted fault of a library.
fn library_faults() -> Vec<Fault> {
    let of_calls = REASON_FAULTS.map(Fault::Reason).into_iter().chain(STOP_FAULTS.map(Fault::Stops));
    let of_records = NARROWING_FAULTS.map(Fault::Narrowing).into_iter().chain(COUNTS_FAULTS.map(Fault::Counts));
    let others = MENDING_FAULTS.map(Fault::Mending).into_iter().chain(WEIGHT_FAULTS.map(Fault::Weights));
    let of_parts = PART_FAULTS.map(Fault::Parts).into_iter().chain(LINE_FAULTS.map(Fault::Line));
    let of_scratch = SCRATCH_FAULTS.into_iter().flat_map(|fault| CALLS.map(|call| Fault::Scratch(fault, call)));
    let of_callers = CALL_FAULTS.map(Fault::Calls).into_iter().chain(VIEW_FAULTS.map(Fault::Views));
    let all = FAULTS.into_iter().chain(of_calls).chain(of_records).chain(others).chain(of_parts);
    all.chain(of_scratch).chain(of_callers).collect()
}

/// The first seed of each of these kinds, out of some that the quick part tries, whose case shows a fault.
fn shown(shows: impl Fn(&Kind) -> bool, is_shown: impl Fn(Kind, u64) -> bool) -> Vec<String> {
    let seeds = |kind: Kind| QUICK.iter().find(|(k, _)| *k == kind).map_or(0, |(_, count)| *count).min(300);
    let first = |kind: Kind| (1..=seeds(kind)).find(|&seed| is_shown(kind, seed));
    let kinds = KINDS.into_iter().filter(shows);
    kinds.filter_map(|kind| first(kind).map(|seed| format!("{} {seed}", kind.name()))).collect()
}

/// The stored case and the seeds that show a library's fault.
fn finders(fault: Fault) -> Vec<String> {
    let library = Faulty { fault };
    let stored = stored::CASES.iter().find(|case| !stored::run(case, &library).differences.is_empty());
    let subject = match fault {
        Fault::Reason(_) => Subject::Reasons,
        Fault::Mending(_) => Subject::Mending,
        Fault::Parts(_) => Subject::Parts,
        Fault::Calls(_) | Fault::Views(_) => Subject::Rights,
        _ => Subject::Others,
    };
    // Of the line of part totals the program alone knows.
    let shows = |kind: &Kind| match fault {
        Fault::Line(_) => *kind == Kind::Text,
        _ => kind.subject() == subject,
    };
    let seeds = shown(shows, |kind, seed| !cases::run(kind, seed, &library).differences.is_empty());
    stored.map(|case| format!("\"{}\"", case.0)).into_iter().chain(seeds).collect()
}

/// The seeds whose cases find, by the question of finer grids alone, that this grid would win against this library.
fn wins(grid: &dyn Grid, library: &dyn Library) -> Vec<String> {
    let wins = |kind, seed| {
        let report = cases::run_on(grid, kind, seed, library);
        report.differences.iter().any(|difference| difference.starts_with(WINS))
    };
    shown(|kind| kind.subject() == Subject::Finer, wins)
}

/// The seeds whose cases find, by two records that are alike for a device alone, that this library tells it of others.
fn tells(library: &dyn Library) -> Vec<String> {
    let tells = |kind, seed| {
        let report = cases::run(kind, seed, library);
        report.differences.iter().any(|difference| difference.starts_with(TELLS))
    };
    shown(|kind| *kind == Kind::RightsPairs, tells)
}

/// How the quick part finds each planted fault: the kinds of cases that show it.
fn self_check() -> i32 {
    let mut all = Tally::default();
    let mut note = |fault: String, caught: Vec<String>| {
        println!("{fault}: {}", if caught.is_empty() { "NOT CAUGHT".to_string() } else { caught.join(", ") });
        all.passed += !caught.is_empty() as u64;
        all.failed += caught.is_empty() as u64;
    };
    for fault in library_faults() {
        note(format!("{fault:?}"), finders(fault));
    }
    for fault in GIVING_LESS {
        note(format!("{fault:?}, by finer grids alone"), wins(&Finer, &Faulty { fault }));
    }
    for fault in TELLING {
        note(format!("{fault:?}, by pairs alone"), tells(&Faulty { fault }));
    }
    for fault in GRID_FAULTS {
        note(format!("Grid({fault:?})"), wins(&FaultyGrid { fault }, &library::Model));
    }
    let sound = try_seeds(&library::Model, 1..101, 2, Kind::at);
    println!("the model itself: {} of 100 seeds differ", sound.failed);
    all.failed += (sound.failed > 0) as u64;
    all.last_line()
}

fn one(library: &dyn Library, kind: &str, seed: u64) -> i32 {
    let Some(kind) = Kind::named(kind) else {
        println!("{USAGE}");
        return 2;
    };
    let report = cases::run(kind, seed, library);
    for difference in &report.differences {
        println!("DIFFERENCE: {difference}");
    }
    let mut all = Tally::default();
    all.add(kind.name(), report);
    println!("{} {seed}: {} calls", kind.name(), all.calls);
    println!("{}", all.numbers_line());
    all.last_line()
}

fn print(prefer: Prefer) -> i32 {
    let mut ticket = Vec::new();
    std::io::stdin().read_to_end(&mut ticket).expect("standard input");
    print!("{}", model::text::printed(&library::planned(prefer, &ticket)));
    0
}

fn compare_solvers(seed: u64, count: u64) -> i32 {
    let mut all = Tally::default();
    let (agreed, differences) = solvers::compare(seed, count);
    println!("{agreed} tickets and records by the solvers of the model");
    all.add("solvers", Report { differences, ..Report::default() });
    all.last_line()
}

fn main() {
    let words: Vec<String> = std::env::args().skip(1).collect();
    let words: Vec<&str> = words.iter().map(String::as_str).collect();
    let number = |word: &str| word.replace(['_', ','], "").parse::<u64>().ok();
    let status = match words[..] {
        ["quick"] => quick(library()),
        ["self-check" | "--self-check"] => self_check(),
        ["long", seed, count, ref rest @ ..] => {
            let threads = rest.first().map_or(Some(2), |word| number(word));
            let kinds: Option<Vec<Kind>> = rest.iter().skip(1).map(|word| Kind::named(word)).collect();
            match (number(seed), number(count), threads, kinds) {
                (Some(seed), Some(count), Some(threads), Some(kinds)) => {
                    long(library(), seed, count, threads as usize, &kinds)
                }
                _ => 2,
            }
        }
        ["one", kind, seed] => number(seed).map_or(2, |seed| one(library(), kind, seed)),
        ["script"] => {
            print!("{}", script::answers());
            0
        }
        ["runs"] => {
            print!("{}", stored::runs::printed(library()));
            0
        }
        ["print"] => print(Prefer::Earliest),
        ["print", "latest"] => print(Prefer::Latest),
        ["solvers", seed, count] => match (number(seed), number(count)) {
            (Some(seed), Some(count)) => compare_solvers(seed, count),
            _ => 2,
        },
        _ => 2,
    };
    if status == 2 {
        println!("{USAGE}");
    }
    std::process::exit(status);
}
