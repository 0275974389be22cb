//! One call at a time: the library's answer and all the memory it was lent, against what the model says or what is stored.

use crate::lent::{Element, Lent, Pattern};
use crate::library::Library;
use crate::model::calls::{self, Answer, Asked, Delivery, Loose, LooseRecord};
use crate::model::finer::{Allowed, Finer, Grid, PARTS};
use crate::model::rings::{self, Step};
use crate::model::stops::NO_PATH;
use crate::model::{reading, reason, text, writing, Commitment, Prefer, Record, Rule, Solver, Ticket, Window};
use crate::model::{DATABASE, DEVICES};
use crate::random::Random;
use std::fmt::Debug;

/// Numbers answered: 0 to 20.
pub const NUMBERS: usize = 21;

/// Calls made, how many of them the model answers with each number, and the differences found.
#[derive(Default)]
pub struct Report {
    pub calls: u64,
    pub numbers: [u64; NUMBERS],
    pub differences: Vec<String>,
}

/// A library under trial, and the report so far. What is lent holds the pattern before each call; none: a drawn one. `last` is
/// what the library answered to the last plan or commitment with lent scratch, and `last_door` the number that its door
/// answered; the grid is what the former is held against.
pub struct Trial<'a> {
    library: &'a dyn Library,
    pub grid: &'a dyn Grid,
    pub random: Random,
    pub solver: Solver,
    pub pattern: Option<Pattern>,
    last: Option<Answer>,
    last_door: Option<u32>,
    pub report: Report,
}

/// How long output and scratch are.
#[derive(Clone, Copy, Debug)]
pub struct Lengths {
    pub out: usize,
    pub scratch: usize,
}

pub const ENOUGH: Lengths = Lengths { out: calls::RECORD, scratch: calls::SCRATCH };

/// How long the outputs of mending are: the ticket's, and that of the list of dropped rules.
#[derive(Clone, Copy, Debug)]
pub struct Outputs {
    pub out: usize,
    pub dropped: usize,
}

pub const LEAST: Outputs = Outputs { out: calls::TICKET, dropped: calls::DROPPED };

/// How many lists of opens and closes are few enough to look at each.
const FEW_LISTS: f64 = 66_000.0;

/// A finer grid has wider windows than an answer, or has windows after 9.
pub const WINS: &str = "a finer grid would win";
/// A finer grid has no windows as wide as an answer.
const LACKS: &str = "a finer grid lacks the plan";

/// A view, or the number of a commitment, tells two records apart that are alike for its caller.
pub const TELLS: &str = "a caller is told of others";

pub fn hex(bytes: &[u8]) -> String {
    bytes.iter().map(|byte| format!("{byte:02x}")).collect()
}

impl<'a> Trial<'a> {
    pub fn new(library: &'a dyn Library, seed: u64) -> Trial<'a> {
        let (random, report) = (Random::new(seed), Report::default());
        let (solver, pattern) = (Solver::Flow, None);
        Trial { library, grid: &Finer, random, solver, pattern, last: None, last_door: None, report }
    }

    /// Notes a difference unless `holds`.
    pub fn expect(&mut self, holds: bool, what: &str, call: impl FnOnce() -> String) {
        if !holds {
            self.report.differences.push(format!("{what}: {}", call()));
        }
    }

    fn lend<T: Element>(&mut self, length: usize) -> Lent<T> {
        let pattern = self.pattern.unwrap_or_else(|| Pattern::drawn(&mut self.random));
        Lent::new(length, pattern, &mut self.random)
    }

    fn count(&mut self, number: u32) {
        self.report.calls += 1;
        self.report.numbers[number as usize] += 1;
    }

    /// Planning and commitment: answer, record, rest of the output, scratch; then the C door. Expected is what holds with
    /// enough memory. What the library wrote, if it has to accept.
    fn planning(
        &mut self,
        expected: &Delivery,
        lengths: Lengths,
        call: &dyn Fn() -> String,
        lent: &dyn Fn(&mut [u8], &mut [u32]) -> Answer,
        door: &dyn Fn(&mut [u8]) -> u32,
    ) -> Option<Vec<u8>> {
        let mut out: Lent<u8> = self.lend(lengths.out);
        let mut scratch: Lent<u32> = self.lend(lengths.scratch);
        let answer = lent(out.slice(), scratch.slice());
        self.last = Some(answer);
        let short = lengths.out < calls::RECORD || lengths.scratch < calls::SCRATCH;
        let too_short = Delivery::of(&Err(10));
        let Delivery { answer: expected_answer, record } = if short { &too_short } else { expected };
        self.count(expected_answer.number);
        self.expect(answer == *expected_answer, "answer", || {
            format!("{} answered {answer:?}, expected {expected_answer:?}", call())
        });
        let written = out.first(record.len()).to_vec();
        self.expect(written == *record, "record", || {
            format!("{} wrote {}, expected {}", call(), hex(&written), hex(record))
        });
        self.expect(out.untouched_after(record.len()), "rest of the output", call);
        let cleared = if short { 0 } else { calls::SCRATCH };
        let zero = scratch.first(cleared).iter().all(|&number| number == 0);
        self.expect(zero, "scratch not cleared", call);
        self.expect(scratch.untouched_after(cleared), "rest of the scratch", call);
        self.door(expected, lengths.out, call, door);
        (expected_answer.number == 0).then_some(written)
    }

    /// The door has scratch of its own; length and total follow from the record.
    fn door(&mut self, expected: &Delivery, length: usize, call: &dyn Fn() -> String, door: &dyn Fn(&mut [u8]) -> u32) {
        let mut out: Lent<u8> = self.lend(length);
        let answer = door(out.slice());
        self.last_door = Some(answer);
        let too_short = Delivery::of(&Err(10));
        let Delivery { answer: Answer { number, .. }, record } =
            if length < calls::RECORD { &too_short } else { expected };
        self.count(*number);
        self.expect(answer == *number, "door's number", || format!("{} answered {answer}, expected {number}", call()));
        self.expect(out.first(record.len()) == record, "door's record", call);
        self.expect(out.untouched_after(record.len()), "rest of the door's output", call);
    }

    /// What the model says. Where it searches, flow has to say the same.
    fn expected<T: PartialEq + Debug>(&mut self, call: &dyn Fn() -> String, by: impl Fn(Solver) -> T) -> T {
        self.expected_by(self.solver, call, by)
    }

    fn expected_by<T: PartialEq + Debug>(
        &mut self,
        solver: Solver,
        call: &dyn Fn() -> String,
        by: impl Fn(Solver) -> T,
    ) -> T {
        let expected = by(solver);
        if solver == Solver::Exhaustive {
            let solved = by(Solver::Flow);
            let ways = || format!("{}: searched {expected:?}, by flow {solved:?}", call());
            self.expect(expected == solved, "the model's two ways", ways);
        }
        expected
    }

    /// Planning of these bytes; the record, if accepted.
    pub fn plan(&mut self, prefer: Prefer, ticket: &[u8], lengths: Lengths) -> Option<Vec<u8>> {
        let call = || format!("{prefer:?} plan {} with {lengths:?}", hex(ticket));
        let expected = self.expected(&call, |solver| calls::plan(ticket, prefer, solver));
        self.plan_as(prefer, ticket, &Delivery::of(&expected), lengths)
    }

    /// Planning of these bytes, of which this is expected.
    pub fn plan_as(&mut self, prefer: Prefer, ticket: &[u8], expected: &Delivery, lengths: Lengths) -> Option<Vec<u8>> {
        let call = || format!("{prefer:?} plan {} with {lengths:?}", hex(ticket));
        let library = self.library;
        let lent = |out: &mut [u8], scratch: &mut [u32]| library.plan(prefer, ticket, out, scratch);
        let door = |out: &mut [u8]| library.plan_door(prefer, ticket, out);
        self.planning(expected, lengths, &call, &lent, &door)
    }

    /// A commitment on these bytes; the record, if accepted.
    pub fn commit(&mut self, record: &[u8], commitment: Commitment, lengths: Lengths) -> Option<Vec<u8>> {
        let call = || format!("commit {commitment:?} on {} with {lengths:?}", hex(record));
        let expected = self.expected(&call, |solver| calls::commit(record, commitment, solver));
        self.commit_as(record, commitment, &Delivery::of(&expected), lengths)
    }

    /// A commitment on these bytes, of which this is expected.
    pub fn commit_as(
        &mut self,
        record: &[u8],
        commitment: Commitment,
        expected: &Delivery,
        lengths: Lengths,
    ) -> Option<Vec<u8>> {
        let call = || format!("commit {commitment:?} on {} with {lengths:?}", hex(record));
        let library = self.library;
        let lent = |out: &mut [u8], scratch: &mut [u32]| library.commit(record, commitment, out, scratch);
        let door = |out: &mut [u8]| library.commit_door(record, commitment, out);
        self.planning(expected, lengths, &call, &lent, &door)
    }

    /// The table of H, n and rules; what the output holds afterwards.
    pub fn table(&mut self, horizon: u32, events: u32, rules: &[Rule], length: usize) -> Vec<i32> {
        let mut out: Lent<i32> = self.lend(length);
        let mut expected = out.slice().to_vec();
        let number = calls::table(horizon, events, rules, &mut expected, self.solver);
        let answer = self.library.table(horizon, events, rules, out.slice());
        self.count(number);
        let call = || format!("table H {horizon}, n {events}, {rules:?}, {length} numbers");
        self.expect(answer == number, "table's number", || format!("{} answered {answer}, expected {number}", call()));
        self.expect(out.slice() == expected, "table", call);
        self.expect(out.untouched_after(length), "margin of the table", call);
        out.slice().to_vec()
    }

    /// The table of these bytes after this many stops; what the output holds afterwards. If they are a ticket, its table is
    /// asked for, too.
    pub fn table_after(&mut self, ticket: &[u8], stops: u32, length: usize) -> Vec<i32> {
        let mut out: Lent<i32> = self.lend(length);
        let (mut expected, mut finished) = (out.slice().to_vec(), out.slice().to_vec());
        let number = calls::table_after(ticket, stops, &mut expected, self.solver);
        let answer = self.library.table_after(ticket, stops, out.slice());
        self.count(number);
        let call = || format!("table of {} after {stops} stops, {length} numbers", hex(ticket));
        self.expect(answer == number, "number after stops", || {
            format!("{} answered {answer}, expected {number}", call())
        });
        self.expect(out.slice() == expected, "table after stops", call);
        self.expect(out.untouched_after(length), "margin of the table after stops", call);
        if let Ok(read) = reading::ticket(ticket) {
            let of_table = self.library.table(read.horizon, read.events() as u32, &read.rules, &mut finished);
            let holds = answer == of_table && (number != 0 || is_after(&read, stops, out.slice(), &finished));
            self.expect(holds, "a claim of a table after stops", || format!("{}, the table {of_table}", call()));
        }
        out.slice().to_vec()
    }

    pub fn rewrite_ticket(&mut self, ticket: &[u8], length: usize) {
        let library = self.library;
        let expected = |out: &mut [u8]| calls::rewrite_ticket(ticket, out);
        let call = |out: &mut [u8]| library.rewrite_ticket(ticket, out);
        self.rewriting(&|| format!("ticket {}", hex(ticket)), length, &expected, &call);
    }

    /// A record read and written again; what the library wrote, if it accepts.
    pub fn rewrite_record(&mut self, record: &[u8], length: usize) -> Option<Vec<u8>> {
        let library = self.library;
        let expected = |out: &mut [u8]| calls::rewrite_record(record, out);
        let call = |out: &mut [u8]| library.rewrite_record(record, out);
        self.rewriting(&|| format!("record {}", hex(record)), length, &expected, &call)
    }

    pub fn write_ticket(&mut self, loose: &Loose, length: usize) {
        let library = self.library;
        let expected = |out: &mut [u8]| calls::write_ticket(loose, out);
        let call = |out: &mut [u8]| library.write_ticket(loose, out);
        self.rewriting(&|| format!("ticket {loose:?}"), length, &expected, &call);
    }

    /// A record of these values written; what the library wrote, if it accepts.
    pub fn write_record(&mut self, loose: &LooseRecord, length: usize) -> Option<Vec<u8>> {
        let library = self.library;
        let expected = |out: &mut [u8]| calls::write_record(loose, out);
        let call = |out: &mut [u8]| library.write_record(loose, out);
        self.rewriting(&|| format!("record {loose:?}"), length, &expected, &call)
    }

    /// The whole text that the program prints for these bytes.
    pub fn printed(&mut self, prefer: Prefer, ticket: &[u8]) {
        let outcome = calls::plan(ticket, prefer, self.solver);
        let expected = text::printed(&outcome);
        let given = self.library.printed(prefer, ticket);
        self.count(outcome.err().unwrap_or(0));
        let call = || format!("{prefer:?} plan {} printed {given:?}, expected {expected:?}", hex(ticket));
        self.expect(given == expected, "text", call);
    }

    /// Why a ticket is impossible, in words; the text, if the library gives one.
    pub fn reason(&mut self, asked: &Asked, length: usize) -> Option<Vec<u8>> {
        let (library, solver) = (self.library, self.solver);
        let Asked { ticket, labels, roster } = asked;
        let what = || format!("reason of {}, labels {}, roster {}", hex(ticket), hex(labels), hex(roster));
        let expected = |out: &mut [u8]| calls::reason(asked, out, solver);
        let call = |out: &mut [u8]| library.reason(asked, out);
        let text = self.rewriting(&what, length, &expected, &call)?;
        let given = || format!("{} gave {:?}", what(), String::from_utf8_lossy(&text));
        self.expect(explains(asked, &text) == Some(true), "a reason's claim", given);
        Some(text)
    }

    /// Mending of these bytes; the mended ticket and the list of dropped rules, if the model accepts.
    pub fn mend(&mut self, ticket: &[u8], lengths: Outputs) -> Option<(Vec<u8>, Vec<u8>)> {
        let call = || format!("mending of {} with {lengths:?}", hex(ticket));
        let mut out: Lent<u8> = self.lend(lengths.out);
        let mut dropped: Lent<u8> = self.lend(lengths.dropped);
        let (mut wanted, mut listed) = (out.slice().to_vec(), dropped.slice().to_vec());
        let mending = || self.expected(&call, |solver| calls::mend(ticket, solver));
        let (number, length, list_length) = calls::hand_out(mending, &mut wanted, &mut listed);
        let answer = self.library.mend(ticket, out.slice(), dropped.slice());
        self.count(number);
        self.expect(answer == number, "mending's number", || {
            format!("{} answered {answer}, expected {number}", call())
        });
        let (mended, list) = (out.first(length).to_vec(), dropped.first(list_length).to_vec());
        let written = || format!("{} wrote {} and listed {}", call(), hex(&mended), hex(&list));
        self.expect(out.slice() == wanted, "output of the mended ticket", written);
        self.expect(dropped.slice() == listed, "output of the list", written);
        let within = out.untouched_after(lengths.out) && dropped.untouched_after(lengths.dropped);
        self.expect(within, "margins of mending", call);
        (number == 0).then_some((mended, list))
    }

    /// Claims of a mended ticket that need no model, by the library's other answers: kept and dropped rules are the ticket's;
    /// the mended ticket has a plan, and the ticket one exactly where no rule is dropped; mended again it stays as it is; and
    /// a dropped rule, put back at its place or after all others, leaves no plan.
    pub fn is_mended(&mut self, ticket: &[u8], mended: &[u8], list: &[u8]) {
        let call = || format!("mending of {} wrote {} and listed {}", hex(ticket), hex(mended), hex(list));
        let Some((whole, kept, numbers)) = parted(ticket, mended, list) else {
            return self.expect(false, "kept and dropped rules", call);
        };
        let library = self.library;
        let plan = |of: &Ticket| library.plan_door(Prefer::Earliest, &writing::ticket(of), &mut [0; calls::RECORD]);
        self.expect(plan(&kept) == 0, "the mended ticket's plan", call);
        let (mut out, mut dropped) = ([0; calls::TICKET], [255; calls::DROPPED]);
        let again = library.mend(mended, &mut out, &mut dropped);
        let stays = again == 0 && out[..mended.len()] == *mended && dropped[..2] == [0, 0];
        self.expect(stays, "mended again", call);
        if numbers.is_empty() {
            return;
        }
        self.expect(plan(&whole) == 9, "the plan of a ticket with rules to drop", call);
        let number = self.random.pick(&numbers);
        let place = number - 1 - numbers.iter().filter(|&&other| other < number).count();
        for place in [place, kept.rules.len()] {
            let mut back = kept.clone();
            back.rules.insert(place, whole.rules[number - 1]);
            self.expect(plan(&back) == 9, "a dropped rule put back", || format!("{}, number {number}", call()));
        }
    }

    /// A device's part of these bytes; the part, if the model accepts.
    pub fn part(&mut self, ticket: &[u8], device: u32, length: usize) -> Option<Vec<u8>> {
        let call = || format!("part of device {device} of {} with {length} bytes", hex(ticket));
        let mut out: Lent<u8> = self.lend(length);
        let mut wanted = out.slice().to_vec();
        let part = || self.expected(&call, |solver| calls::part(ticket, device, solver));
        let (number, written) = calls::hand_out_part(part, &mut wanted);
        let answer = self.library.part(ticket, device, out.slice());
        self.count(number);
        self.expect(answer == number, "part's number", || format!("{} answered {answer}, expected {number}", call()));
        let given = out.first(written as usize).to_vec();
        self.expect(given == wanted[..given.len()], "part", || {
            format!("{} wrote {}, expected {}", call(), hex(&given), hex(&wanted[..given.len()]))
        });
        self.expect(out.untouched_after(written as usize), "rest of the part's output", call);
        (number == 0).then_some(given)
    }

    /// A caller's view of these bytes; the view, if the model accepts.
    pub fn view(&mut self, record: &[u8], caller: u32, length: usize) -> Option<Vec<u8>> {
        let call = || format!("view by {caller} of {} with {length} bytes", hex(record));
        let mut out: Lent<u8> = self.lend(length);
        let mut wanted = out.slice().to_vec();
        let view = || self.expected(&call, |solver| calls::view(record, caller, solver));
        let (number, written) = calls::hand_out_view(view, &mut wanted);
        let answer = self.library.view(record, caller, out.slice());
        self.count(number);
        self.expect(answer == number, "view's number", || format!("{} answered {answer}, expected {number}", call()));
        let given = out.first(written as usize).to_vec();
        self.expect(given == wanted[..given.len()], "view", || {
            format!("{} wrote {}, expected {}", call(), hex(&given), hex(&wanted[..given.len()]))
        });
        self.expect(out.untouched_after(written as usize), "rest of the view's output", call);
        (number == 0).then_some(given)
    }

    /// The five views of a record that need no model, by its bytes alone: behind each event's number its nine bytes, where its
    /// owner's byte is the caller's, of the database all.
    pub fn are_views(&mut self, record: &[u8], views: &[Vec<u8>]) {
        let call = || format!("views of {}: {:?}", hex(record), views.iter().map(|view| hex(view)).collect::<Vec<_>>());
        let events = record[4] as usize;
        let owners = &record[6..6 + events];
        let end = record.len() - 2 - 2 * DEVICES;
        let windows = record[end - 9 * events..end].chunks(9);
        for (caller, view) in (0..).zip(views) {
            let shown = (1..).zip(owners.iter().zip(windows.clone()));
            let shown = shown.filter(|(_, (&owner, _))| caller == DATABASE || caller == owner);
            let bytes: Vec<Vec<u8>> = shown.map(|(event, (_, window))| [&[event][..], window].concat()).collect();
            let wanted = [vec![bytes.len() as u8, 0], bytes.concat()].concat();
            self.expect(*view == wanted, "a view of the record's bytes", call);
        }
    }

    /// 02, change 11, of two records that are alike for this device: its views are equal, in number and in all of the output.
    pub fn are_viewed_alike(&mut self, records: [&[u8]; 2], device: u32) {
        let library = self.library;
        let given = records.map(|record| {
            self.view(record, device, calls::VIEW);
            let mut out = [0xa5; calls::VIEW];
            (library.view(record, device, &mut out), out)
        });
        let call = || format!("view by {device} of {} and of {}", hex(records[0]), hex(records[1]));
        self.expect(given[0] == given[1], TELLS, call);
    }

    /// 02, change 11, of two records that are alike for the caller: the numbers answered to its commitment are equal, with
    /// lent scratch and by the C door.
    pub fn are_answered_alike(&mut self, records: [&[u8]; 2], commitment: Commitment) {
        let given = records.map(|record| {
            self.commit(record, commitment, ENOUGH);
            (self.last.map(|answer| answer.number), self.last_door)
        });
        let call = || format!("commit {commitment:?} on {} and on {}: {given:?}", hex(records[0]), hex(records[1]));
        self.expect(given[0] == given[1], TELLS, call);
    }

    /// Claims of the five parts of a ticket that need no model, by the library's other answers. By the table, each is of its
    /// device's events, rising, and fit; where its distances are few enough for a ticket, they are planned to its windows. By
    /// the plan, each is as wide as that device's windows there, or wider; where no rule joins events of two devices, these
    /// windows are the parts' and the totals sum to the plan's; and so they are where all events are one device's.
    pub fn are_parts(&mut self, ticket: &Ticket, parts: &[Vec<u8>]) {
        let bytes = writing::ticket(ticket);
        let call = || format!("parts of {}: {:?}", hex(&bytes), parts.iter().map(|part| hex(part)).collect::<Vec<_>>());
        let library = self.library;
        let (mut table, mut out) = ([0; calls::TABLE], [0; calls::RECORD]);
        let numbers = [
            library.table(ticket.horizon, ticket.events() as u32, &ticket.rules, &mut table),
            library.plan_door(Prefer::Earliest, &bytes, &mut out),
        ];
        self.expect(numbers == [0; 2], "table and plan of a ticket that has parts", call);
        let record = reading::record(&out[..bytes.len() + 14 + 9 * ticket.events()]);
        let (Ok(record), [0, 0]) = (record, numbers) else { return };
        let size = ticket.events() + 1;
        let distance = |i: usize, j: usize| table[i * size + j];
        let (mut sum, mut windows) = (0, vec![None; ticket.events()]);
        for (device, part) in (0..).zip(parts) {
            let events: Vec<usize> = (1..size).filter(|&event| ticket.owners[event - 1] == device).collect();
            let is_of_device =
                |read: &Vec<(usize, Window)>| read.iter().map(|&(event, _)| event).eq(events.iter().copied());
            let Some(read) = reading::part(part).filter(is_of_device) else {
                return self.expect(false, "a part's events", call);
            };
            let alone = Ticket { owners: vec![device; events.len()], ..among(ticket.horizon, &events, distance) };
            let given: Vec<Window> = read.iter().map(|&(_, window)| window).collect();
            self.expect(are_fit(&alone, &given), "a part's windows are fit", call);
            if alone.rules.len() <= 256 {
                let of_part = writing::ticket(&alone);
                let mut out = [0; calls::RECORD];
                let number = library.plan_door(Prefer::Earliest, &of_part, &mut out);
                let planned = reading::record(&out[..of_part.len() + 14 + 9 * events.len()]);
                let same = number == 0 && planned.is_ok_and(|planned| planned.windows == given);
                self.expect(same, "a part planned as a ticket", call);
            }
            let share: Vec<Window> = events.iter().map(|event| record.windows[event - 1]).collect();
            self.expect(alone.total(&given) >= alone.total(&share), "a part as wide as in the whole plan", call);
            sum += alone.total(&given);
            events.iter().zip(given).for_each(|(event, window)| windows[event - 1] = Some(window));
        }
        let total = ticket.total(&record.windows);
        self.expect(sum >= total, "the part totals sum to no less than the total", call);
        if !joins_devices(ticket) {
            let same = sum == total && windows == record.windows.iter().copied().map(Some).collect::<Vec<_>>();
            self.expect(same, "the parts of devices that no rule joins are the plan", call);
        }
    }

    /// Claims of a plan that need no model, by the library's other answers: wheel, lamps and stage may change places; events
    /// of the camera alone have the windows that the wheel's would have; an event of the database has a tick, where all
    /// events are its the earliest or the latest time.
    pub fn is_weighed(&mut self, prefer: Prefer, ticket: &Ticket, record: &[u8]) {
        let call = || format!("{prefer:?} plan of {} wrote {}", hex(&writing::ticket(ticket)), hex(record));
        let library = self.library;
        let windows = |bytes: &[u8]| reading::record(bytes).map(|read| read.windows);
        let alone = |device: u8| ticket.owners.iter().all(|&owner| owner == device);
        let other = |&owner: &u8| match owner {
            0 if alone(0) => 1,
            1..=3 => owner % 3 + 1,
            _ => owner,
        };
        let others = Ticket { owners: ticket.owners.iter().map(other).collect(), ..ticket.clone() };
        let mut out = [0; calls::RECORD];
        let number = library.plan_door(prefer, &writing::ticket(&others), &mut out);
        let same = number == 0 && windows(&out[..record.len()]) == windows(record);
        self.expect(same, "devices of equal weight", call);
        let given = windows(record).unwrap_or_default();
        let ticks = given.iter().zip(&ticket.owners).all(|(window, &owner)| owner != 4 || window.open == window.close);
        self.expect(ticks, "a tick of the database", call);
        if !alone(4) {
            return;
        }
        let size = ticket.events() + 1;
        let mut table = [0; calls::TABLE];
        library.table(ticket.horizon, size as u32 - 1, &ticket.rules, &mut table);
        let time = |event: usize| match prefer {
            Prefer::Earliest => -table[event * size] as u32,
            Prefer::Latest => table[event] as u32,
        };
        let times: Vec<Window> = (1..size).map(|event| Window { open: time(event), close: time(event) }).collect();
        self.expect(given == times, "times of the database", call);
    }

    /// 02, change 10, of the last answer, by its number and total alone, whatever it wrote: on each grid of 2 to 7 parts to a tick
    /// the widest of the windows that are allowed have no greater total, counted in parts, and no less, since the answer's own
    /// are among them; after 9 there are none. Where the model searches, it does so while the lists to look at are few.
    pub fn wins_nothing(&mut self, allowed: Allowed, prefer: Prefer) {
        let grid = self.grid;
        let Some(answer) = self.last.filter(|answer| [0, 9].contains(&answer.number)) else { return };
        for q in PARTS {
            let few = grid.lists(allowed, q) <= FEW_LISTS;
            let solver = if few { self.solver } else { Solver::Flow };
            let call = || format!("{q} parts to a tick of {allowed:?}, {prefer:?}, answered {answer:?}");
            let widest = self.expected_by(solver, &call, |solver| grid.widest(allowed, prefer, q, solver));
            let found = || format!("{}, the widest on the grid {widest:?}", call());
            // None is less than any total.
            let counted = (answer.number == 0).then_some(q as i64 * answer.total as i64);
            self.expect(widest <= counted, WINS, found);
            self.expect(widest >= counted, LACKS, found);
        }
    }

    /// Number, length, bytes and rest of what is written; `what` says it. What the library wrote, if it accepts.
    fn rewriting(
        &mut self,
        what: &dyn Fn() -> String,
        length: usize,
        expected: &dyn Fn(&mut [u8]) -> (u32, u32),
        rewrite: &dyn Fn(&mut [u8]) -> (u32, u32),
    ) -> Option<Vec<u8>> {
        let mut out: Lent<u8> = self.lend(length);
        let mut wanted = out.slice().to_vec();
        let answer = expected(&mut wanted);
        let given = rewrite(out.slice());
        self.count(answer.0);
        let call = || format!("{} with {length} bytes answered {given:?}, expected {answer:?}", what());
        self.expect(given == answer, "writing", call);
        let written = out.first(given.1 as usize).to_vec();
        self.expect(out.slice() == wanted, "written", || {
            format!("{}, wrote {}, expected {}", call(), hex(&written), hex(&wanted[..answer.1 as usize]))
        });
        self.expect(out.untouched_after(answer.1 as usize), "rest of what is written", call);
        (given.0 == 0).then_some(written)
    }

    /// A record's claims that need no model: what a run says of flags, counts and kept windows.
    pub fn follows(&mut self, before: &Record, commitment: Commitment, after: &[u8]) -> Option<Record> {
        let Ok(record) = reading::record(after) else {
            self.report.differences.push(format!("unreadable record {}", hex(after)));
            return None;
        };
        let place = commitment.event as usize - 1;
        let (mut flags, mut counts) = (before.committed.clone(), before.counts);
        flags[place] = true;
        counts[before.ticket.owners[place] as usize] += 1;
        let kept = before.windows.iter().zip(&record.windows).enumerate().all(|(k, (old, new))| match k {
            _ if k == place => (new.open, new.close) == (commitment.open, commitment.close),
            _ if before.committed[k] => new == old,
            _ => new.open <= old.open && old.close <= new.close,
        });
        let holds = kept && record.ticket == before.ticket && record.committed == flags && record.counts == counts;
        self.expect(holds, "a run's claim", || format!("{commitment:?} made {} of {before:?}", hex(after)));
        Some(record)
    }
}

/// Claims of a table after some stops that need no model: each entry is the least of the bounds between its points, of 0
/// from a point to itself, and of two entries that meet at a stop taken; none is below the finished one; and after all
/// stops the output is that of the finished table.
fn is_after(ticket: &Ticket, stops: u32, out: &[i32], finished: &[i32]) -> bool {
    if stops as usize > ticket.events() {
        return out == finished;
    }
    let size = ticket.events() + 1;
    let at = |i: usize, j: usize| out[i * size + j];
    let mut least = vec![NO_PATH as i64; size * size];
    let mut lower = |i: usize, j: usize, sum: i64| least[i * size + j] = least[i * size + j].min(sum);
    (0..size).for_each(|point| lower(point, point, 0));
    ticket.all_rules().into_iter().for_each(|(i, j, bound)| lower(i, j, bound));
    for k in size - stops as usize..size {
        for i in (0..size).filter(|&i| i != k && at(i, k) != NO_PATH) {
            for j in (0..size).filter(|&j| j != k && at(k, j) != NO_PATH) {
                lower(i, j, at(i, k) as i64 + at(k, j) as i64);
            }
        }
    }
    out.iter().zip(&least).all(|(&entry, &least)| entry as i64 == least)
        && out.iter().zip(finished).all(|(entry, least)| entry >= least)
}

/// Whether a rule joins events of two devices.
fn joins_devices(ticket: &Ticket) -> bool {
    let owner = |point: u8| ticket.owners[point as usize - 1];
    ticket.rules.iter().any(|rule| rule.from != 0 && rule.to != 0 && owner(rule.from) != owner(rule.to))
}

/// A ticket of these events, owned by the camera, with the distance of each ordered pair of different points as a rule.
fn among(horizon: u32, events: &[usize], distance: impl Fn(usize, usize) -> i32) -> Ticket {
    let points: Vec<usize> = [0].iter().chain(events).copied().collect();
    let mut rules = Vec::new();
    for from in 0..points.len() {
        for to in (0..points.len()).filter(|&to| to != from) {
            rules.push(Rule { from: from as u8, to: to as u8, bound: distance(points[from], points[to]) });
        }
    }
    Ticket { horizon, owners: vec![0; events.len()], rules }
}

/// Whether the windows are windows of the session and keep each rule from the open of its first point to the close of its
/// second.
fn are_fit(ticket: &Ticket, windows: &[Window]) -> bool {
    let ends = |point: u8| match point {
        0 => (0, 0),
        _ => (windows[point as usize - 1].open as i64, windows[point as usize - 1].close as i64),
    };
    windows.iter().all(|window| window.open <= window.close && window.close <= ticket.horizon)
        && ticket.rules.iter().all(|rule| ends(rule.to).1 - ends(rule.from).0 <= rule.bound as i64)
}

/// A ticket, what is left of it and the numbers of the rules that are dropped, out of the bytes. None unless these rise and
/// the rules of the other numbers are what is left.
fn parted(ticket: &[u8], mended: &[u8], list: &[u8]) -> Option<(Ticket, Ticket, Vec<usize>)> {
    let (whole, kept) = (reading::ticket(ticket).ok()?, reading::ticket(mended).ok()?);
    let numbers = reading::dropped(list)?;
    let rising = numbers.windows(2).all(|pair| pair[0] < pair[1]);
    let inside = numbers.iter().all(|number| (1..=whole.rules.len()).contains(number));
    let others = (1..=whole.rules.len()).filter(|number| !numbers.contains(number));
    let rules = others.map(|number| whole.rules[number - 1]).collect();
    let holds = rising && inside && kept == Ticket { rules, ..whole.clone() };
    holds.then_some((whole, kept, numbers))
}

/// The rule of this number, counted from the number; none if there is none.
fn rule_of_number(ticket: &Ticket, number: usize) -> Option<Step> {
    let m = ticket.rules.len();
    if (1..=m).contains(&number) {
        let Rule { from, to, bound } = ticket.rules[number - 1];
        return Some(Step { from: from as usize, to: to as usize, bound: bound as i64 });
    }
    (1..=ticket.events()).find_map(|event| match number {
        _ if number == m + 2 * event - 1 => Some(Step { from: event, to: 0, bound: 0 }),
        _ if number == m + 2 * event => Some(Step { from: 0, to: event, bound: ticket.horizon as i64 }),
        _ => None,
    })
}

/// A reason's claims that need no model's ring: what is read back from the text are at most n + 1 rules, the lowest first,
/// each with its bound and from where the one before it goes to, which sum below zero; and the text is theirs. None if it
/// cannot be read.
fn explains(asked: &Asked, text: &[u8]) -> Option<bool> {
    let ticket = reading::ticket(&asked.ticket).ok()?;
    let labels = reason::names(&asked.labels, ticket.events()).ok()?;
    let roster = reason::names(&asked.roster, DEVICES).ok()?;
    let read = reason::read(text)?;
    let ring: Vec<usize> = read.iter().map(|&(number, _)| number).collect();
    let walk: Vec<Step> = ring.iter().map(|&number| rule_of_number(&ticket, number)).collect::<Option<_>>()?;
    let onward = walk.iter().cycle().skip(1);
    let is_ring = walk.len() <= ticket.events() + 1
        && ring.iter().min() == ring.first()
        && walk.iter().zip(&read).all(|(rule, &(_, bound))| rule.bound == bound)
        && walk.iter().zip(onward).all(|(rule, next)| rule.to == next.from)
        && walk.iter().map(|rule| rule.bound).sum::<i64>() < 0;
    Some(is_ring && reason::text(&ticket, &rings::numbered(&ticket), &ring, &labels, &roster) == text)
}
