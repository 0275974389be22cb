//! The stored script of the program `cases`, answered by the model. The head of crates/cases/stdin says how its lines are
//! read and what is printed.

use crate::model::calls::{self, Loose, LooseRecord};
use crate::model::{reading, Commitment, Prefer, Rule, Solver, DEVICES};

const SCRIPT: &str = "crates/cases/stdin";
const ANSWERS: &str = "crates/cases/stdout";

/// How many bytes of input and output, numbers of a table and numbers of scratch the program has, and what they hold first.
const BYTES: usize = 2_048;
const NUMBERS: usize = 1_700;
const SCRATCH: usize = 8_200;
const HELD: u8 = 7;

/// What holds between two lines: the kept bytes, and how much output and scratch is lent.
struct State {
    kept: Vec<u8>,
    out: usize,
    scratch: usize,
}

/// Bytes as the program reads them: 0 past the end.
struct Input(Vec<u8>);

impl Input {
    fn byte(&self, at: usize) -> u8 {
        self.0.get(at).copied().unwrap_or(0)
    }

    fn two(&self, at: usize) -> u32 {
        self.byte(at) as u32 + 256 * self.byte(at + 1) as u32
    }

    fn four(&self, at: usize) -> u32 {
        self.two(at) + 65_536 * self.two(at + 2)
    }

    fn rule(&self, at: usize) -> Rule {
        Rule { from: self.byte(at), to: self.byte(at + 1), bound: self.four(at + 2) as i32 }
    }
}

/// The bytes that the words of a line stand for; numbers have `width` bytes where none is written.
fn input(words: &str, width: usize, kept: &[u8]) -> Input {
    let mut bytes = vec![HELD; BYTES];
    let mut at = 0;
    for word in words.split(' ').filter(|word| !word.is_empty()) {
        let (number, width) = match word.split_once(':') {
            Some((number, width)) => (number, width.parse().expect("a width")),
            None => (word, width),
        };
        at = match number.strip_prefix('@') {
            Some(place) => place.parse().expect("a place"),
            None if number == "*" => {
                bytes[..kept.len()].copy_from_slice(kept);
                kept.len()
            }
            None => {
                let number: i64 = number.parse().expect("a number");
                bytes[at..at + width].copy_from_slice(&number.to_le_bytes()[..width]);
                at + width
            }
        };
    }
    bytes.truncate(at);
    Input(bytes)
}

/// The values at the places of the largest record, with no value tested.
fn values(input: &Input) -> LooseRecord {
    let ticket = Loose {
        horizon: input.four(0),
        events: input.two(4),
        owners: std::array::from_fn(|k| input.byte(6 + k)),
        rules: input.two(46),
        from: std::array::from_fn(|k| input.rule(48 + 6 * k).from),
        to: std::array::from_fn(|k| input.rule(48 + 6 * k).to),
        bound: std::array::from_fn(|k| input.rule(48 + 6 * k).bound),
    };
    LooseRecord {
        ticket,
        flags: std::array::from_fn(|k| input.byte(1_586 + 9 * k)),
        opens: std::array::from_fn(|k| input.four(1_587 + 9 * k)),
        closes: std::array::from_fn(|k| input.four(1_591 + 9 * k)),
        counts: (0..DEVICES).map(|device| input.two(1_948 + 2 * device)).collect(),
    }
}

/// Number and length of what is written to an output of this length, and whether these are the first bytes expected.
fn written(expected: &[u8], length: usize, write: impl FnOnce(&mut [u8]) -> (u32, u32)) -> (Vec<i64>, bool) {
    let mut out = vec![HELD; length.min(BYTES)];
    let (number, count) = write(&mut out);
    let right = expected.get(..count as usize) == Some(&out[..count as usize]);
    (vec![number as i64, count as i64], right)
}

fn read(bytes: &[u8], expected: &[u8]) -> (Vec<i64>, bool) {
    let (ticket, record) = (reading::ticket(bytes).err(), reading::record(bytes).err());
    let again = [
        (ticket, written(expected, BYTES, |out| calls::rewrite_ticket(bytes, out))),
        (record, written(expected, BYTES, |out| calls::rewrite_record(bytes, out))),
    ];
    let (mut numbers, mut right) = (Vec::new(), true);
    for (refused, (written, same)) in again {
        numbers.push(refused.unwrap_or(0) as i64);
        if refused.is_none() {
            numbers.extend(written);
            right &= same;
        }
    }
    (numbers, right)
}

fn every(bytes: &[u8]) -> Vec<i64> {
    let first = |number: &dyn Fn(&[u8]) -> Option<u32>| {
        (0..bytes.len()).find(|&length| number(&bytes[..length]) != Some(1)).unwrap_or(bytes.len()) as i64
    };
    vec![first(&|part| reading::ticket(part).err()), first(&|part| reading::record(part).err())]
}

fn table(input: &Input, length: usize) -> Vec<i64> {
    let count = (input.four(8) as usize).min(NUMBERS);
    let rules: Vec<Rule> = (0..count).map(|k| input.rule(12 + 6 * k)).collect();
    let mut out = vec![HELD as i32; NUMBERS];
    let lent = &mut out[..length.min(NUMBERS)];
    let number = calls::table(input.four(0), input.four(4), &rules, lent, Solver::Flow);
    let changed = out.iter().rposition(|&entry| entry != HELD as i32).map_or(0, |last| last + 1);
    [number as i64].into_iter().chain(out[..changed].iter().map(|&entry| entry as i64)).collect()
}

/// Planning of the input, or a commitment on the kept record; an accepted record is kept.
fn plan(call: &str, input: &Input, state: &mut State) -> (Vec<i64>, bool) {
    let mut out = vec![HELD; state.out.min(BYTES)];
    let mut scratch = vec![HELD as u32; state.scratch.min(SCRATCH)];
    let (caller, event) = (input.four(0), input.four(4));
    let commitment = Commitment { caller, event, open: input.four(8), close: input.four(12) };
    let outcome = || match call {
        "commit" => calls::commit(&state.kept, commitment, Solver::Flow),
        _ => calls::plan(&input.0, Prefer::Earliest, Solver::Flow),
    };
    let answer = calls::deliver(outcome, &mut out, &mut scratch);
    let mut numbers = vec![answer.number as i64, answer.length as i64, answer.total as i64];
    out.truncate(answer.length as usize);
    let Ok(record) = reading::record(&out) else { return (numbers, true) };
    for (window, committed) in record.windows.iter().zip(record.committed) {
        numbers.extend([committed as i64, window.open as i64, window.close as i64]);
    }
    numbers.extend(record.counts.map(i64::from));
    let given = if call == "plan" { &input.0 } else { &state.kept };
    let ticket = 8 + record.ticket.events() + 6 * record.ticket.rules.len();
    let right = given.get(..ticket) == Some(&out[..ticket]);
    state.kept = out;
    (numbers, right)
}

/// What is printed for the call of a line.
fn answer(call: &str, words: &str, state: &mut State) -> String {
    let width = if call == "commit" || call == "lend" { 4 } else { 1 };
    let input = input(words, width, &state.kept);
    let (numbers, right) = match call {
        "keep" => {
            state.kept = input.0;
            (vec![state.kept.len() as i64], true)
        }
        "lend" => {
            (state.out, state.scratch) = (input.four(0) as usize, input.four(4) as usize);
            (Vec::new(), true)
        }
        "read" => read(&input.0, &input.0),
        "other" => read(&input.0, &state.kept),
        "every" => (every(&input.0), true),
        "write" => {
            let loose = values(&input);
            let ticket = written(&input.0, state.out, |out| calls::write_ticket(&loose.ticket, out));
            let record = written(&input.0, state.out, |out| calls::write_record(&loose, out));
            ([ticket.0, record.0].concat(), ticket.1 && record.1)
        }
        "table" => (table(&input, state.out), true),
        "plan" | "unlike" | "commit" => plan(call, &input, state),
        _ => panic!("no call '{call}'"),
    };
    let printed: String = numbers.iter().map(|number| format!(" {number}")).collect();
    printed + if right { "" } else { " memory" }
}

/// What the program prints for the script.
pub fn answers() -> String {
    let script = std::fs::read_to_string(SCRIPT).expect(SCRIPT);
    let mut state = State { kept: Vec::new(), out: BYTES, scratch: SCRATCH };
    let mut text = String::new();
    for line in script.lines().filter(|line| !line.is_empty() && !line.starts_with('#')) {
        let (name, rest) = line.split_once(": ").expect("a name and a call");
        let (call, words) = rest.split_once(' ').unwrap_or((rest, ""));
        text += &format!("{name}:{}\n", answer(call, words, &mut state));
    }
    text
}

/// How many lines there are, and where the stored answers are not the model's.
pub fn compare() -> (usize, Vec<String>) {
    let stored = std::fs::read_to_string(ANSWERS).expect(ANSWERS);
    let answers = answers();
    let pairs = stored.lines().zip(answers.lines()).filter(|(stored, answer)| stored != answer);
    let mut differences: Vec<String> = pairs.map(|(stored, answer)| format!("{stored}, the model: {answer}")).collect();
    if stored.lines().count() != answers.lines().count() {
        differences.push("another number of lines".to_string());
    }
    (answers.lines().count(), differences)
}
