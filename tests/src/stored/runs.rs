//! Stored runs: tests/runs.txt has what the library answered and wrote before 02, change 9, with scratch of 8,192 numbers.
//! Callers, which came with change 11, are the events' owners, and 20 stands where 11 stood. All of it is asked for again with
//! other lengths of scratch.

use super::scratch::raised;
use super::{by_owner, record, three_in_sequence, ticket, two_trains, unread, Stored};
use crate::generate::{self, STRUCTURES};
use crate::lent::Pattern;
use crate::library::Library;
use crate::mirror;
use crate::model::calls::{self, Answer, Delivery};
use crate::model::{reading, writing, Commitment, Prefer, Record, Ticket, Window, BOTH, MOST_ACCEPTED};
use crate::random::Random;
use crate::trial::{hex, Lengths, ENOUGH, NUMBERS};

const FILE: &str = "tests/runs.txt";

const HEAD: &str = "\
# Runs of the library with scratch of 8,192 numbers, printed by `tests/run runs`. Each has its name in its first line,
# and then a call a line: what is asked, and after '=' number, length, total and, where a record is written, its bytes
# after those of the ticket, with which it begins.
# The answers are older than callers: each CALLER is the owner of its event, 0 where there is no such event, and there 20
# stands where the library answered 11.
#
# earliest TICKET                  the plan of these bytes
# latest TICKET                    the latest plan
# record RECORD                    a record from elsewhere: nothing is asked
# commit CALLER EVENT OPEN CLOSE   a commitment on the last record
";

/// How much scratch the stored answers were given with.
const SCRATCH: usize = 8_192;

/// The runs as they are printed.
struct Printed<'a> {
    library: &'a dyn Library,
    text: String,
    record: Vec<u8>,
}

impl Printed<'_> {
    fn named(&mut self, name: &str) {
        self.text += &format!("\n{name}\n");
    }

    /// A line with what the library answers. What it writes begins with these bytes.
    fn line(&mut self, asked: &str, ticket: &[u8], call: impl FnOnce(&mut [u8], &mut [u32]) -> Answer) {
        let (mut out, mut scratch) = (vec![0; calls::RECORD], vec![0; SCRATCH]);
        let Answer { number, length, total } = call(&mut out, &mut scratch);
        self.text += &format!("{asked} = {number} {length} {total}");
        if number == 0 {
            out.truncate(length as usize);
            let after = out.strip_prefix(ticket).expect("a record begins with its ticket");
            self.text += &format!(" {}", hex(after));
            self.record = out;
        }
        self.text += "\n";
    }

    fn plan(&mut self, prefer: Prefer, ticket: &[u8]) {
        let library = self.library;
        self.record.clear();
        let asked = format!("{} {}", name_of(prefer), hex(ticket));
        self.line(asked.trim_end(), ticket, |out, scratch| library.plan(prefer, ticket, out, scratch));
    }

    fn elsewhere(&mut self, record: Vec<u8>) {
        self.text += &format!("record {}\n", hex(&record));
        self.record = record;
    }

    fn commit(&mut self, commitment: Commitment) {
        let library = self.library;
        let record = self.record.clone();
        let Commitment { caller, event, open, close } = commitment;
        let asked = format!("commit {caller} {event} {open} {close}");
        self.line(&asked, ticket_of(&record), |out, scratch| library.commit(&record, commitment, out, scratch));
    }

    /// Commitments that are drawn on the record of an accepted plan or from elsewhere, three in ten of them wrong.
    fn drawn_commitments(&mut self, count: usize, random: &mut Random) {
        for _ in 0..count {
            let Ok(record) = reading::record(&self.record) else { return };
            let session = vec![Window { open: 0, close: record.ticket.horizon }; record.windows.len()];
            self.commit(if random.chance(30) {
                generate::refused_commitment(&record, &session, random)
            } else {
                generate::commitment(&record, 30, random)
            });
        }
    }
}

fn name_of(prefer: Prefer) -> &'static str {
    match prefer {
        Prefer::Earliest => "earliest",
        Prefer::Latest => "latest",
    }
}

/// The ticket's bytes in those of a record; none if it is none.
fn ticket_of(record: &[u8]) -> &[u8] {
    let length = reading::record(record).map_or(0, |read| writing::ticket(&read.ticket).len());
    &record[..length]
}

/// The examples of 01, each with commitments on both plans, and the session of the repository.
fn print_examples(printed: &mut Printed) {
    let session = reading::ticket(include_bytes!("../../../examples/tickets/session.ticket"));
    let one = |bound: i32| ticket(10, &[3], &[(1, 0, bound)]);
    let two = |bound: i32| ticket(10, &[3, 3], &[(1, 2, -1), (2, 1, bound)]);
    let (trains, sequence) = (two_trains(), three_in_sequence());
    let examples: [(&str, Ticket, &[(u32, u32, u32)]); 9] = [
        ("P1 and P2", trains, &[(1, 10, 10), (2, 13, 13), (1, 9, 10), (2, 9, 9), (3, 9, 9), (0, 9, 9), (1, 10, 10)]),
        ("P4 and P5", sequence, &[(1, 2, 2), (2, 1, 2), (2, 2, 2), (3, 0, 1), (1, 5, 5), (3, 1, 1), (3, 0, 0)]),
        ("P6", two(1), &[(1, 1, 1), (1, 10, 10), (2, 0, 9)]),
        ("P6 with bound 0", two(0), &[]),
        ("P7", one(-10), &[(1, 10, 10), (1, 9, 10), (2, 10, 10)]),
        ("P7 with bound -11", one(-11), &[]),
        ("P8", ticket(0, &[], &[]), &[(1, 0, 0)]),
        ("P10", ticket(5, &[3, 3], &[]), &[(2, 5, 5), (1, 0, 6), (1, 0, 4), (1, 4, 0), (1, 1, 1)]),
        ("the session", session.expect("the session's ticket"), &[(4, 550, 560), (7, 710, 750), (9, 850, 900)]),
    ];
    for (name, ticket, commitments) in examples {
        for prefer in BOTH {
            printed.named(&format!("{name}, {}", name_of(prefer)));
            printed.plan(prefer, &writing::ticket(&ticket));
            for &asked in commitments {
                printed.commit(by_owner(&printed.record, asked));
            }
        }
    }
    printed.named("P3");
    printed.elsewhere(record(two_trains(), &[(15, 15), (13, 19)]));
    printed.commit(by_owner(&printed.record, (2, 13, 13)));
}

/// Tickets that are refused under 1 to 8, the plan and the latest plan by turns, and those that one rule leaves no schedule.
fn print_refused(printed: &mut Printed) {
    for ((bytes, number), prefer) in unread().into_iter().zip(BOTH.into_iter().cycle()) {
        printed.named(&format!("refused under {number}, {}", name_of(prefer)));
        printed.plan(prefer, &bytes);
    }
    for (last, others) in [(35, 2), (35, 3), (35, 4), (38, 0), (40, 0)] {
        let raised = raised(last, others);
        let name = format!("{last} events raised, and {others} others");
        for (prefer, ticket) in [(Prefer::Earliest, raised.clone()), (Prefer::Latest, mirror::ticket(&raised))] {
            printed.named(&format!("{name}, {}", name_of(prefer)));
            printed.plan(prefer, &writing::ticket(&ticket));
        }
    }
}

/// Tickets of the ten structures, of all sizes, and of 40 events and 256 rules, with commitments.
fn print_drawn(printed: &mut Printed) {
    for seed in 201..=220 {
        let mut random = Random::new(seed);
        let structure = STRUCTURES[seed as usize % STRUCTURES.len()];
        let (n, horizon) = generate::size(&mut random);
        let ticket = generate::ticket(structure, n, horizon, &mut random);
        let prefer = if seed <= 210 { Prefer::Earliest } else { Prefer::Latest };
        printed.named(&format!("{structure:?} of {n} events, {}", name_of(prefer)));
        printed.plan(prefer, &writing::ticket(&ticket));
        printed.drawn_commitments(6, &mut random);
    }
    for (seed, prefer) in (221..=224).zip(BOTH.into_iter().cycle()) {
        let mut random = Random::new(seed);
        let horizon = random.pick(&[36_000, 1_000_000]);
        let ticket = generate::full(40, horizon, &mut random);
        printed.named(&format!("40 events and 256 rules in {horizon} ticks, {}", name_of(prefer)));
        printed.plan(prefer, &writing::ticket(&ticket));
        printed.drawn_commitments(6, &mut random);
    }
}

/// Records from elsewhere: drawn ones, one that is not fit, counts next to the greatest, and bytes that are no record.
fn print_elsewhere(printed: &mut Printed) {
    for seed in 41..=44 {
        let mut random = Random::new(seed);
        let structure = STRUCTURES[seed as usize % STRUCTURES.len()];
        let ticket = generate::ticket(structure, 8, 1_000, &mut random);
        printed.named(&format!("{structure:?} of 8 events, a record from elsewhere"));
        printed.elsewhere(writing::record(&generate::foreign_record(ticket, &mut random)));
        printed.drawn_commitments(6, &mut random);
    }
    let windows = |ends: [(u32, u32); 2]| ends.map(|(open, close)| Window { open, close }).to_vec();
    let inside = (1, 6, 9);
    let counts = [MOST_ACCEPTED - 1, 0, 7, 0, 0];
    let high = Record { counts, ..Record::new(two_trains(), windows([(5, 11), (9, 9)])) };
    let bytes = writing::record(&high);
    printed.named("up to the greatest count");
    printed.elsewhere(bytes.clone());
    for asked in [inside, inside, (2, 9, 9), (3, 6, 9)] {
        printed.commit(by_owner(&printed.record, asked));
    }
    let flagged = Record { committed: vec![false, true], counts: [0; 5], ..high.clone() };
    let unfit = Record { windows: windows([(5, 15), (8, 19)]), ..high };
    for (name, record) in [
        ("windows that are not fit", writing::record(&unfit)),
        ("a count below its device's flags", writing::record(&flagged)),
        ("a record cut off", bytes[..bytes.len() - 1].to_vec()),
        ("a byte after the record", [&bytes[..], &[0]].concat()),
    ] {
        printed.named(name);
        printed.elsewhere(record);
        printed.commit(by_owner(&printed.record, inside));
    }
}

/// The file as this library answers.
pub fn printed(library: &dyn Library) -> String {
    let mut printed = Printed { library, text: HEAD.to_string(), record: Vec::new() };
    print_examples(&mut printed);
    print_refused(&mut printed);
    print_drawn(&mut printed);
    print_elsewhere(&mut printed);
    printed.text
}

fn bytes(hex: &str) -> Option<Vec<u8>> {
    let pairs = (0..hex.len()).step_by(2);
    pairs.map(|at| u8::from_str_radix(hex.get(at..at + 2)?, 16).ok()).collect()
}

/// What a line says after '=', of a call whose record begins with this ticket.
fn told(words: &[&str], ticket: &[u8]) -> Option<Delivery> {
    let [number, length, total, after] = match *words {
        [number, length, total] => [number, length, total, ""],
        [number, length, total, after] => [number, length, total, after],
        _ => return None,
    };
    let answer = Answer { number: number.parse().ok()?, length: length.parse().ok()?, total: total.parse().ok()? };
    let record = if answer.number == 0 { [ticket, &bytes(after)?].concat() } else { Vec::new() };
    ((answer.number as usize) < NUMBERS).then_some(Delivery { answer, record })
}

/// A line of a run, asked for again with each length of scratch; the record after it. None if the line is not read.
fn again(case: &mut Stored, line: &str, record: &[u8]) -> Option<Vec<u8>> {
    let (asked, answer) = line.split_once(" = ").unwrap_or((line, ""));
    let asked: Vec<&str> = asked.split(' ').collect();
    let answer: Vec<&str> = answer.split(' ').collect();
    let lengths = [2_399, 2_400, 2_401, SCRATCH].map(|scratch| Lengths { scratch, ..ENOUGH });
    let expected = match asked[..] {
        ["record", record] => return bytes(record),
        ["earliest" | "latest", ref ticket @ ..] => {
            let ticket = bytes(ticket.first().unwrap_or(&""))?;
            let expected = told(&answer, &ticket)?;
            let prefer = BOTH.into_iter().find(|&prefer| name_of(prefer) == asked[0])?;
            for lengths in lengths {
                case.trial.plan_as(prefer, &ticket, &expected, lengths);
            }
            expected
        }
        ["commit", caller, event, open, close] => {
            let (caller, event) = (caller.parse().ok()?, event.parse().ok()?);
            let (open, close) = (open.parse().ok()?, close.parse().ok()?);
            let expected = told(&answer, ticket_of(record))?;
            for lengths in lengths {
                case.trial.commit_as(record, Commitment { caller, event, open, close }, &expected, lengths);
            }
            expected
        }
        _ => return None,
    };
    Some(if expected.answer.number == 0 { expected.record } else { record.to_vec() })
}

/// Every answer of the file is given again, byte by byte, with scratch that holds random numbers; with too little of it, 10.
pub fn replay(case: &mut Stored) {
    case.trial.pattern = Some(Pattern::Random);
    let text = std::fs::read_to_string(FILE).expect(FILE);
    for run in text.split("\n\n").skip(1) {
        let mut lines = run.lines();
        let name = lines.next().unwrap_or("");
        let mut record = Vec::new();
        for line in lines {
            let before = case.trial.report.differences.len();
            match again(case, line, &record) {
                Some(after) => record = after,
                None => case.says(false, &format!("a line of {FILE} is read: {line}")),
            }
            for difference in &mut case.trial.report.differences[before..] {
                *difference = format!("stored run \"{name}\", {difference}");
            }
        }
    }
    let met: Vec<usize> = (0..NUMBERS).filter(|&number| case.trial.report.numbers[number] > 0).collect();
    case.says(met == [0, 1, 2, 3, 4, 5, 6, 7, 8, 9, 10, 13, 14, 15, 18, 20], "all numbers are stored");
}
