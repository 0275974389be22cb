//! Cases with known answers: the examples of 01, what 02 makes of them, and instances from the five source documents.
//! Each is also compared with the model. "Says" lines are the source's statement, in our words.

mod counts;
mod mending;
mod narrowing;
mod parts;
mod reasons;
mod rights;
pub mod runs;
mod scratch;
mod stops;
mod weights;

use crate::library::Library;
use crate::model::calls::{self, Loose, LooseRecord};
use crate::model::{reading, writing, Commitment, Prefer, Record, Rule, Solver, Ticket, Window, BOTH};
use crate::trial::{Lengths, Report, Trial, ENOUGH};

/// A name and what it tries.
type Case = (&'static str, fn(&mut Stored));

pub const CASES: [Case; 100] = [
    ("01, P1 and P2", example_1_2),
    ("01, P3", example_3),
    ("01, P4 and P5", example_4_5),
    ("01, P6", example_6),
    ("01, P7", example_7),
    ("01, P8 and P9", example_8_9),
    ("01, P10", example_10),
    ("01, both sides of the limits", both_sides),
    ("02, change 1: P1's latest plan", latest_1),
    ("02, change 1: a commitment on P1's latest plan", latest_then_commitment),
    ("02, change 1: commitments on a latest plan prefer the earliest", latest_then_earliest),
    ("02, change 1: latest plans of P4 to P10", latest_4_to_10),
    ("02, change 1: latest plan of a session", latest_session),
    ("02, change 1: mirrors past a ticket's range", latest_past_the_range),
    ("02, change 1: refusals of the latest plan", latest_refusals),
    ("02, change 2: P6 and P7 that are impossible", reasons::examples),
    ("02, change 2: unwritten rules", reasons::unwritten),
    ("02, change 2: ties", reasons::ties),
    ("02, change 2: a ring through all points", reasons::all_points),
    ("02, change 2: the longest text", reasons::longest),
    ("02, change 2: names", reasons::names),
    ("02, change 2: refusals in their order", reasons::refusals),
    ("02, change 2: lists that break their layout", reasons::lists),
    ("02, change 3: P1 after each stop", stops::example_1),
    ("02, change 3: a path more at each stop", stops::each_stop),
    ("02, change 3: the database last", stops::database_last),
    ("02, change 3: no path until session start", stops::no_path),
    ("02, change 3: single rules", stops::single_rules),
    ("02, change 3: far above the horizon", stops::far_above_the_horizon),
    ("02, change 3: no schedule", stops::impossible),
    ("02, change 3: refusals in their order", stops::refusals),
    ("02, change 4: P1's events narrow again", narrowing::example_1),
    ("02, change 4: the same window again", narrowing::same_window),
    ("02, change 4: other committed windows stay", narrowing::others_stay),
    ("02, change 4: widest and then earliest", narrowing::widest_then_earliest),
    ("02, change 4: a committed window does not grow", narrowing::no_growing),
    ("02, change 4: tick by tick", narrowing::tick_by_tick),
    ("02, change 4: a count up to 65,535", narrowing::up_to_the_most),
    ("02, change 4: refusals in their order", narrowing::refusals),
    ("02, change 4: counts that are read", narrowing::counts_read),
    ("02, change 4: counts that are written", narrowing::counts_written),
    ("02, change 5: whole records of P1 to P10", counts::whole_records),
    ("02, change 5: each device's acceptances", counts::each_device),
    ("02, change 5: counts of a session", counts::session),
    ("02, change 5: one device at 65,535", counts::one_full),
    ("02, change 5: a device's own flags", counts::own_flags),
    ("02, change 5: devices without an event", counts::nothing_owned),
    ("02, change 5: the number of the counts", counts::number_of_counts),
    ("02, change 5: fields in their order", counts::fields_in_order),
    ("02, change 5: an output of 1,958 bytes", counts::outputs),
    ("02, change 5: the largest record", counts::largest),
    ("02, change 5: both bytes of each count", counts::both_bytes),
    ("02, change 5: counts that are written", counts::written),
    ("02, change 6: P6 and P7 that are impossible", mending::examples),
    ("02, change 6: tickets with a schedule", mending::unchanged),
    ("02, change 6: rings", mending::rings),
    ("02, change 6: rules after a dropped one", mending::later),
    ("02, change 6: rings by way of 0 and H", mending::limits),
    ("02, change 6: 256 rules", mending::many),
    ("02, change 6: a ring through all points", mending::all_points),
    ("02, change 6: refusals in their order", mending::refusals),
    ("02, change 7: P1", weights::example_1),
    ("02, change 7: each device alone", weights::alone),
    ("02, change 7: a tick of the camera against three", weights::against_three),
    ("02, change 7: the database beside others", weights::database_beside),
    ("02, change 7: commitments at weight 0", weights::database_commits),
    ("02, change 7: totals", weights::totals),
    ("02, change 7: the largest total", weights::largest),
    ("02, change 8: P1", parts::example_1),
    ("02, change 8: P4 to P10", parts::examples_4_to_10),
    ("02, change 8: by way of other devices", parts::by_way_of_others),
    ("02, change 8: devices that no rule joins", parts::separate),
    ("02, change 8: events of one device", parts::one_device),
    ("02, change 8: a session", parts::session),
    ("02, change 8: 40 events", parts::forty),
    ("02, change 8: refusals in their order", parts::refusals),
    ("02, change 9: lengths and contents of scratch", scratch::lengths),
    ("02, change 9: points raised many times", scratch::raised_often),
    ("02, change 9: stored runs", runs::replay),
    ("02, change 11: views of P1 to P3", rights::example_1),
    ("02, change 11: views of P4 to P10", rights::examples_4_to_10),
    ("02, change 11: each device's own events", rights::own_events),
    ("02, change 11: calls by turns", rights::by_turns),
    ("02, change 11: refusals of a commitment in their order", rights::refusals),
    ("02, change 11: refusals of a view in their order", rights::view_refusals),
    ("02, change 11: views of 40 events", rights::forty),
    ("02, change 11: views of a session", rights::session),
    ("02, change 11: records alike for a device", rights::pairs),
    ("000, examples 1 and 2: trains", trains),
    ("000, example 3: earliest to latest", trains_earliest_to_latest),
    ("000, examples 4 to 6: a train commits", trains_commitment),
    ("001, an implied bound", implied_bound),
    ("003, concurrent events", concurrent),
    ("003, sequential events", sequential),
    ("003, any number of events", any_number),
    ("003, examples 4 and 6: narrower windows", narrower),
    ("003, example 5: the other order", other_order),
    ("002 and 004, a shared calendar: table", calendar_table),
    ("002 and 004, a shared calendar: schedules", calendar_schedules),
    ("003, example 8: width of the calendar", calendar_width),
];

/// A case under way.
pub struct Stored<'a> {
    trial: Trial<'a>,
}

pub fn run(case: &Case, library: &dyn Library) -> Report {
    let mut stored = Stored { trial: Trial::new(library, 1) };
    (case.1)(&mut stored);
    stored.trial.report
}

fn ticket(horizon: u32, owners: &[u8], rules: &[(u8, u8, i32)]) -> Ticket {
    let rules = rules.iter().map(|&(from, to, bound)| Rule { from, to, bound }).collect();
    Ticket { horizon, owners: owners.to_vec(), rules }
}

fn record(ticket: Ticket, windows: &[(u32, u32)]) -> Vec<u8> {
    let windows = windows.iter().map(|&(open, close)| Window { open, close }).collect();
    writing::record(&Record::new(ticket, windows))
}

/// A commitment of this event to this window, called by its owner; by the camera where the bytes are no record or have no such
/// event.
fn by_owner(record: &[u8], (event, open, close): (u32, u32, u32)) -> Commitment {
    let owner = reading::record(record).ok().and_then(|record| record.owner(event));
    Commitment { caller: owner.unwrap_or(0), event, open, close }
}

/// The last 12 bytes of a record with these counts.
fn section(counts: [u16; 5]) -> Vec<u8> {
    [5].into_iter().chain(counts).flat_map(u16::to_le_bytes).collect()
}

/// What a caller of writing hands over for the record with these counts.
fn handed(bytes: &[u8], counts: &[u32]) -> Option<LooseRecord> {
    let Record { ticket, committed, windows, .. } = reading::record(bytes).ok()?;
    let mut ticket_values = Loose {
        horizon: ticket.horizon,
        events: ticket.events() as u32,
        owners: [0; 40],
        rules: ticket.rules.len() as u32,
        from: [0; 256],
        to: [0; 256],
        bound: [0; 256],
    };
    ticket_values.owners[..ticket.events()].copy_from_slice(&ticket.owners);
    for (k, rule) in ticket.rules.iter().enumerate() {
        (ticket_values.from[k], ticket_values.to[k], ticket_values.bound[k]) = (rule.from, rule.to, rule.bound);
    }
    let counts = counts.to_vec();
    let mut values = LooseRecord { ticket: ticket_values, flags: [0; 40], opens: [0; 40], closes: [0; 40], counts };
    for (k, window) in windows.iter().enumerate() {
        (values.flags[k], values.opens[k], values.closes[k]) = (committed[k] as u8, window.open, window.close);
    }
    Some(values)
}

impl Stored<'_> {
    fn says(&mut self, holds: bool, what: &str) {
        self.trial.expect(holds, "the source says", || what.to_string());
    }

    /// Tiny tickets are also compared with exhaustive search.
    fn both_solvers<T>(&mut self, tiny: bool, mut call: impl FnMut(&mut Trial) -> T) -> T {
        if tiny {
            self.trial.solver = Solver::Exhaustive;
            call(&mut self.trial);
        }
        self.trial.solver = Solver::Flow;
        call(&mut self.trial)
    }

    fn plan(&mut self, ticket: &Ticket) -> Option<Vec<u8>> {
        self.preferred(Prefer::Earliest, ticket)
    }

    fn plan_latest(&mut self, ticket: &Ticket) -> Option<Vec<u8>> {
        self.preferred(Prefer::Latest, ticket)
    }

    fn preferred(&mut self, prefer: Prefer, ticket: &Ticket) -> Option<Vec<u8>> {
        let bytes = writing::ticket(ticket);
        let tiny = ticket.events() <= 3 && ticket.horizon <= 10;
        self.trial.rewrite_ticket(&bytes, calls::TICKET);
        self.both_solvers(tiny, |trial| trial.plan(prefer, &bytes, ENOUGH))
    }

    /// A commitment that the event's owner calls.
    fn commit(&mut self, record: &[u8], event: u32, open: u32, close: u32) -> Option<Vec<u8>> {
        self.called(record, by_owner(record, (event, open, close)))
    }

    fn called(&mut self, record: &[u8], commitment: Commitment) -> Option<Vec<u8>> {
        self.trial.rewrite_record(record, calls::RECORD);
        let tiny = reading::record(record).is_ok_and(|r| r.ticket.events() <= 4 && r.ticket.horizon <= 20);
        self.both_solvers(tiny, |trial| trial.commit(record, commitment, ENOUGH))
    }

    fn windows(&mut self, record: &Option<Vec<u8>>, windows: &[(u32, u32)], what: &str) {
        let read = record.as_ref().and_then(|bytes| reading::record(bytes).ok());
        let given = read.map(|r| r.windows.iter().map(|w| (w.open, w.close)).collect::<Vec<_>>());
        self.says(given.as_deref() == Some(windows), what);
    }

    fn width(&mut self, record: &Option<Vec<u8>>, width: u32, what: &str) {
        let read = record.as_ref().and_then(|bytes| reading::record(bytes).ok());
        self.says(read.map(|r| r.windows.iter().map(|w| w.close - w.open).sum()) == Some(width), what);
    }

    /// The total of a record, by the model; the library was compared with it.
    fn total(&mut self, record: &Option<Vec<u8>>, total: i64, what: &str) {
        let read = record.as_ref().and_then(|bytes| reading::record(bytes).ok());
        self.says(read.map(|r| r.ticket.total(&r.windows)) == Some(total), what);
    }

    fn refused(&mut self, record: &Option<Vec<u8>>, what: &str) {
        self.says(record.is_none(), what);
    }

    /// The number that a commitment which the event's owner calls is refused under.
    fn uncommitted(&mut self, record: &[u8], asked: (u32, u32, u32), number: u32, what: &str) {
        self.uncalled(record, by_owner(record, asked), number, what);
    }

    /// The number that a commitment is refused under, by the model; the library was compared with it.
    fn uncalled(&mut self, record: &[u8], commitment: Commitment, number: u32, what: &str) {
        self.called(record, commitment);
        let given = calls::commit(record, commitment, Solver::Flow);
        self.says(given.err() == Some(number), what);
    }

    /// The number that planning and the latest plan give, by the model; the library was compared with it.
    fn number(&mut self, bytes: &[u8], number: u32, what: &str) {
        for prefer in BOTH {
            self.trial.plan(prefer, bytes, ENOUGH);
            let given = calls::plan(bytes, prefer, Solver::Flow).err().unwrap_or(0);
            self.says(given == number, what);
        }
    }

    fn table(&mut self, ticket: &Ticket) -> Vec<Vec<i32>> {
        let size = ticket.events() + 1;
        let out = self.trial.table(ticket.horizon, size as u32 - 1, &ticket.rules, calls::TABLE);
        out.chunks(size).take(size).map(|row| row.to_vec()).collect()
    }
}

/// Trains of 000, example 1, in minutes after noon: the first arrives between 5 and 15, the second between 8
/// and 20, at most 4 after and at most 2 before the first.
fn trains_of(owners: [u8; 2]) -> Ticket {
    ticket(20, &owners, &[(0, 1, 15), (1, 0, -5), (0, 2, 20), (2, 0, -8), (1, 2, 4), (2, 1, 2)])
}

/// P1 of 01.
fn two_trains() -> Ticket {
    trains_of([0, 2])
}

/// As in 000, a minute of one train counts what a minute of the other does.
fn equal_trains() -> Ticket {
    trains_of([1, 2])
}

fn example_1_2(case: &mut Stored) {
    let table = case.table(&two_trains());
    case.says(table == [[0, 15, 19], [-5, 0, 4], [-8, 2, 0]], "P1's table");
    let plan = case.plan(&two_trains());
    case.windows(&plan, &[(5, 11), (9, 9)], "P1's plan");
    case.total(&plan, 18, "P1's total");
    let after = plan.and_then(|bytes| case.commit(&bytes, 1, 10, 10));
    case.windows(&after, &[(10, 10), (8, 14)], "P2");
}

fn example_3(case: &mut Stored) {
    let after = case.commit(&record(two_trains(), &[(15, 15), (13, 19)]), 2, 13, 13);
    case.windows(&after, &[(9, 15), (13, 13)], "P3");
}

/// 003's three events in 0 to 5, one after the other: the third first, the first last.
fn three_in_sequence() -> Ticket {
    ticket(5, &[3, 3, 3], &[(1, 2, 0), (2, 3, 0)])
}

fn example_4_5(case: &mut Stored) {
    let plan = case.plan(&three_in_sequence());
    case.windows(&plan, &[(0, 5), (0, 0), (0, 0)], "P4's plan");
    let after = plan.and_then(|bytes| case.commit(&bytes, 1, 2, 2));
    case.windows(&after, &[(2, 2), (0, 2), (0, 0)], "P5");
}

fn example_6(case: &mut Stored) {
    let plan = case.plan(&ticket(10, &[3, 3], &[(1, 2, -1), (2, 1, 1)]));
    case.windows(&plan, &[(1, 1), (0, 0)], "P6's plan");
    let impossible = ticket(10, &[3, 3], &[(1, 2, -1), (2, 1, 0)]);
    case.number(&writing::ticket(&impossible), 9, "P6 with bound 0");
}

fn example_7(case: &mut Stored) {
    let plan = case.plan(&ticket(10, &[3], &[(1, 0, -10)]));
    case.windows(&plan, &[(10, 10)], "P7's plan");
    case.number(&writing::ticket(&ticket(10, &[3], &[(1, 0, -11)])), 9, "P7 with bound -11");
}

fn example_8_9(case: &mut Stored) {
    let plan = case.plan(&ticket(0, &[], &[]));
    case.windows(&plan, &[], "P8");
    case.number(&[], 1, "P9");
}

fn example_10(case: &mut Stored) {
    let plan = case.plan(&ticket(5, &[3, 3], &[]));
    case.windows(&plan, &[(0, 5), (0, 5)], "P10");
}

fn both_sides(case: &mut Stored) {
    let many = |count: usize| vec![(0, 1, 5); count];
    let pairs = [
        (ticket(1_000_000, &[3], &[]), ticket(1_000_001, &[3], &[]), 2),
        (ticket(5, &[3; 40], &[]), ticket(5, &[3; 41], &[]), 3),
        (ticket(5, &[4], &[]), ticket(5, &[5], &[]), 4),
        (ticket(5, &[3], &many(256)), ticket(5, &[3], &many(257)), 5),
    ];
    for (inside, outside, number) in pairs {
        case.number(&writing::ticket(&inside), 0, "inside the limit");
        case.number(&writing::ticket(&outside), number, "past the limit");
    }
    let with_bound = |bound: i32| ticket(1_000_000, &[3], &[(1, 0, bound)]);
    case.number(&writing::ticket(&with_bound(-1_000_000)), 0, "least bound");
    case.number(&writing::ticket(&with_bound(-1_000_001)), 7, "a bound below the least");
    case.number(&writing::ticket(&with_bound(1_000_000)), 0, "greatest bound");
    case.number(&writing::ticket(&with_bound(1_000_001)), 7, "a bound above the greatest");
}

fn latest_1(case: &mut Stored) {
    let plan = case.plan_latest(&two_trains());
    case.windows(&plan, &[(9, 15), (13, 13)], "P1's latest plan");
    case.total(&plan, 18, "total of P1's latest plan");
}

/// On P1's latest plan event 2 keeps its tick.
fn latest_then_commitment(case: &mut Stored) {
    let plan = case.plan_latest(&two_trains());
    let after = plan.and_then(|bytes| case.commit(&bytes, 2, 13, 13));
    case.windows(&after, &[(9, 15), (13, 13)], "a commitment on P1's latest plan");
}

/// Says: commitments on a record made this way still prefer the earliest. Events 3 and 4 come after event 2 and before
/// event 1, which comes 2 to 10 ticks after event 2. When the first of them commits, nothing widens; when the second
/// does, the other two get 8 ticks: as wide as 7..12 and 2..5 are 8..12 and 2..6, and 9..12 and 2..7.
fn latest_then_earliest(case: &mut Stored) {
    let ticket = ticket(12, &[2, 2, 1, 3], &[(1, 3, 0), (1, 4, 0), (3, 2, 0), (4, 2, 0), (1, 2, -2), (2, 1, 10)]);
    let plan = case.plan(&ticket);
    case.windows(&plan, &[(10, 10), (0, 0), (0, 10), (0, 10)], "the plan");
    let latest = case.plan_latest(&ticket);
    case.windows(&latest, &[(12, 12), (2, 2), (2, 12), (2, 12)], "the latest plan");
    let first = latest.and_then(|bytes| case.commit(&bytes, 3, 7, 7));
    case.windows(&first, &[(12, 12), (2, 2), (7, 7), (2, 12)], "the first commitment on the latest plan");
    let second = first.and_then(|bytes| case.commit(&bytes, 4, 7, 7));
    case.windows(&second, &[(7, 12), (2, 5), (7, 7), (7, 7)], "the second commitment on the latest plan");
}

fn latest_4_to_10(case: &mut Stored) {
    let plan = case.plan_latest(&three_in_sequence());
    case.windows(&plan, &[(5, 5), (5, 5), (0, 5)], "P4's latest plan");
    let plan = case.plan_latest(&ticket(10, &[3, 3], &[(1, 2, -1), (2, 1, 1)]));
    case.windows(&plan, &[(10, 10), (9, 9)], "P6's latest plan");
    let plan = case.plan_latest(&ticket(10, &[3, 3], &[(1, 2, -1), (2, 1, 0)]));
    case.refused(&plan, "P6 with bound 0, latest");
    let plan = case.plan_latest(&ticket(10, &[3], &[(1, 0, -10)]));
    case.windows(&plan, &[(10, 10)], "P7's latest plan");
    let plan = case.plan_latest(&ticket(10, &[3], &[(1, 0, -11)]));
    case.refused(&plan, "P7 with bound -11, latest");
    let plan = case.plan_latest(&ticket(0, &[], &[]));
    case.windows(&plan, &[], "P8's latest plan");
    let plan = case.plan_latest(&ticket(5, &[3, 3], &[]));
    case.windows(&plan, &[(0, 5), (0, 5)], "P10's latest plan");
}

/// The ticket of the repository that has all five devices.
fn latest_session(case: &mut Stored) {
    let bytes = include_bytes!("../../examples/tickets/session.ticket");
    let Ok(session) = reading::ticket(bytes) else { return case.says(false, "the session's ticket is read") };
    let plan = case.plan(&session);
    case.windows(&plan, &SESSION, "the session's plan");
    case.total(&plan, 1_500, "total of the session's plan");
    let plan = case.plan_latest(&session);
    case.windows(&plan, &SESSION_LATEST, "the session's latest plan");
    case.total(&plan, 1_500, "total of the session's latest plan");
}

/// The images are stored at ticks, which count nothing, so that the exposures, which count three times, have more room; the
/// second image is stored when the next session needs the rig.
const SESSION: [(u32, u32); 9] =
    [(30, 200), (15, 535), (250, 490), (540, 590), (630, 630), (645, 645), (650, 790), (850, 850), (850, 850)];
const SESSION_LATEST: [(u32, u32); 9] =
    [(30, 200), (15, 535), (300, 490), (540, 650), (690, 690), (705, 705), (710, 790), (850, 850), (850, 900)];

/// Says: a bound may pass a ticket's range in the mirror. None of these tickets is refused for that.
fn latest_past_the_range(case: &mut Stored) {
    let plan = case.plan_latest(&ticket(1_000_000, &[3], &[(1, 0, 1)]));
    case.windows(&plan, &[(0, 1_000_000)], "1,000,001 in the mirror");
    let far = ticket(1_000_000, &[3, 3], &[(1, 0, 1_000_000), (0, 1, 1_000_000), (1, 2, -1_000_000)]);
    let plan = case.plan_latest(&far);
    case.windows(&plan, &[(1_000_000, 1_000_000), (0, 0)], "2,000,000 in the mirror");
    let bytes = writing::ticket(&ticket(1_000_000, &[3], &[(0, 1, -1)]));
    case.number(&bytes, 9, "-1,000,001 in the mirror, and no schedule");
}

/// The ticket of a rule.
fn with_rule(rule: (u8, u8, i32)) -> Vec<u8> {
    writing::ticket(&ticket(5, &[3], &[rule]))
}

/// Bytes that are no ticket, with their numbers 1 to 8.
fn unread() -> Vec<(Vec<u8>, u32)> {
    let mut longer = writing::ticket(&two_trains());
    longer.push(0);
    vec![
        (Vec::new(), 1),
        (longer[..longer.len() - 2].to_vec(), 1),
        (writing::ticket(&ticket(1_000_001, &[3], &[])), 2),
        (writing::ticket(&ticket(5, &[3; 41], &[])), 3),
        (writing::ticket(&ticket(5, &[3, 5], &[])), 4),
        (writing::ticket(&ticket(5, &[3], &[(0, 1, 5); 257])), 5),
        (with_rule((0, 2, 5)), 6),
        (with_rule((1, 1, 1_000_001)), 6),
        (with_rule((0, 1, 1_000_001)), 7),
        (with_rule((1, 0, -1_000_001)), 7),
        (longer, 8),
    ]
}

/// Bytes with several fields wrong, or with the last one cut, and their numbers: each field in its order, its presence before
/// its value.
fn wrong_fields() -> Vec<(Vec<u8>, u32)> {
    let mut wrong = fields_in_order();
    wrong.extend(whole_fields());
    wrong.extend(rules_in_order());
    wrong
}

/// A ticket with all fields wrong and a byte after its end, put right field by field.
fn fields_in_order() -> Vec<(Vec<u8>, u32)> {
    let wrong = ticket(1_000_001, &[5; 41], &[(1, 1, 1_000_001); 257]);
    let tickets = [
        (wrong.clone(), 2),
        (Ticket { horizon: 5, ..wrong }, 3),
        (ticket(5, &[5; 40], &[(1, 1, 1_000_001); 257]), 4),
        (ticket(5, &[0; 40], &[(1, 1, 1_000_001); 257]), 5),
        (ticket(5, &[0; 40], &[(1, 1, 1_000_001); 256]), 6),
        (ticket(5, &[0; 40], &[(0, 1, 1_000_001); 256]), 7),
        (ticket(5, &[0; 40], &[(0, 1, -1); 256]), 8),
    ];
    tickets.into_iter().map(|(of, number)| ([&writing::ticket(&of)[..], &[0]].concat(), number)).collect()
}

/// A wrong field is 1 until its last byte is there.
fn whole_fields() -> Vec<(Vec<u8>, u32)> {
    let ends = [
        (writing::ticket(&ticket(1_000_001, &[], &[])), 4, 2),
        (writing::ticket(&ticket(5, &[0; 41], &[])), 6, 3),
        (writing::ticket(&ticket(5, &[0, 5], &[])), 8, 4),
        (writing::ticket(&ticket(5, &[0], &[(0, 1, 5); 257])), 9, 5),
        (with_rule((1, 1, 1_000_001)), 15, 6),
        (with_rule((0, 1, 1_000_001)), 15, 7),
    ];
    let prefixes = ends.iter().flat_map(|(bytes, end, number)| {
        (0..=*end).map(|length| (bytes[..length].to_vec(), if length < *end { 1 } else { *number }))
    });
    prefixes.collect()
}

/// 6 before 7 in a rule, and the first wrong rule before another.
fn rules_in_order() -> Vec<(Vec<u8>, u32)> {
    let answers =
        |owners: &[u8], rules: &[(u8, u8, i32)], number: u32| (writing::ticket(&ticket(5, owners, rules)), number);
    vec![
        answers(&[0], &[(0, 2, 1_000_001)], 6),
        answers(&[0], &[(2, 0, 5)], 6),
        answers(&[], &[(0, 0, 0)], 6),
        answers(&[0], &[(0, 1, 1_000_001), (1, 1, 5)], 7),
        answers(&[0], &[(0, 1, -1_000_001), (0, 2, 5)], 7),
        answers(&[0], &[(0, 1, -1), (0, 2, 5)], 6),
        answers(&[0], &[(0, 1, -1), (1, 0, i32::MAX)], 7),
    ]
}

/// Numbers 1 to 9 as planning gives them, and 10 before them. What is left in output and scratch is looked at with each.
fn latest_refusals(case: &mut Stored) {
    let impossible = [(with_rule((0, 1, -1)), 9), (with_rule((1, 0, -6)), 9)];
    for (bytes, number) in unread().into_iter().chain(impossible) {
        case.number(&bytes, number, "a refusal of the latest plan");
    }
    let short = |out: usize, scratch: usize| Lengths { out: calls::RECORD - out, scratch: calls::SCRATCH - scratch };
    for bytes in [writing::ticket(&two_trains()), Vec::new()] {
        for lengths in [short(1, 0), short(0, 1), short(1, 1), short(calls::RECORD, calls::SCRATCH)] {
            let plan = case.trial.plan(Prefer::Latest, &bytes, lengths);
            case.refused(&plan, "too little memory for the latest plan");
        }
    }
}

/// Says: the matrix of least distances, earliest times 5 and 8, latest 15 and 19.
fn trains(case: &mut Stored) {
    let table = case.table(&two_trains());
    case.says(table == [[0, 15, 19], [-5, 0, 4], [-8, 2, 0]], "matrix of example 2");
    for schedule in [(10, 10), (15, 17)] {
        let points = [(schedule.0, schedule.0), (schedule.1, schedule.1)];
        let after = case.commit(&record(two_trains(), &points), 1, points[0].0, points[0].0);
        case.says(after.is_some(), "both solutions of example 1 are schedules");
    }
}

/// Says: from earliest to latest for each train alone, choices 10 and 16 together break the rules.
fn trains_earliest_to_latest(case: &mut Stored) {
    let after = case.commit(&record(two_trains(), &[(5, 15), (8, 19)]), 1, 10, 10);
    case.refused(&after, "earliest to latest is no decoupling");
    let after = case.commit(&record(two_trains(), &[(10, 10), (16, 16)]), 1, 10, 10);
    case.refused(&after, "10 and 16 are no schedule");
}

/// Says: greatest flexibility 6, as with 15..15 and 13..19; when the second train commits to 13 the first may
/// arrive at 9 to 15, where without an update it would be bound to 15.
fn trains_commitment(case: &mut Stored) {
    let plan = case.plan(&equal_trains());
    case.windows(&plan, &[(5, 10), (8, 9)], "the earliest windows of example 4");
    case.width(&plan, 6, "flexibility of example 4");
    let latest = case.plan_latest(&equal_trains());
    case.windows(&latest, &[(15, 15), (13, 19)], "windows of example 4");
    let after = case.commit(&record(equal_trains(), &[(15, 15), (13, 19)]), 2, 13, 13);
    case.windows(&after, &[(9, 15), (13, 13)], "update of example 5");
}

/// Before definition 2, says: at most 100 from i to j and at most 200 from j to k make at most 300 from i to k.
fn implied_bound(case: &mut Stored) {
    let table = case.table(&ticket(1_000, &[3; 3], &[(1, 2, 100), (2, 3, 200)]));
    case.says(table[1][3] == 300, "implied bound");
    let plan = case.plan(&ticket(1_000, &[3; 3], &[(1, 2, 100), (2, 3, 200)]));
    case.says(plan.is_some(), "a schedule exists");
}

/// Figure 1, left: three events in 0 to 5, any two at most 5 apart.
/// Says: each may take all of 0 to 5 on its own, flexibility 15.
fn concurrent(case: &mut Stored) {
    let pairs = [(1, 2), (2, 1), (1, 3), (3, 1), (2, 3), (3, 2)];
    let rules: Vec<(u8, u8, i32)> = pairs.iter().map(|&(i, j)| (i, j, 5)).collect();
    let plan = case.plan(&ticket(5, &[3; 3], &rules));
    case.windows(&plan, &[(0, 5); 3], "windows of the concurrent events");
}

/// Figure 1, right. Says: earliest 0 and latest 5 for each, so the sum of these is 15, yet flexibility is 5.
fn sequential(case: &mut Stored) {
    let table = case.table(&three_in_sequence());
    case.says(table[0] == [0, 5, 5, 5], "latest times");
    case.says(table.iter().all(|row| row[0] == 0), "earliest times");
    let plan = case.plan(&three_in_sequence());
    case.width(&plan, 5, "flexibility of the sequential events");
    let after = case.commit(&record(three_in_sequence(), &[(0, 5); 3]), 1, 0, 5);
    case.refused(&after, "earliest to latest of the sequential events");
}

/// Example 2, says: k concurrent events have flexibility 5 k, k sequential ones 5.
fn any_number(case: &mut Stored) {
    for k in [1, 2, 7, 39, 40] {
        let plan = case.plan(&ticket(5, &vec![0; k], &[]));
        case.width(&plan, 5 * k as u32, "k concurrent events");
        let order: Vec<(u8, u8, i32)> = (1..k as u8).map(|event| (event, event + 1, 0)).collect();
        let plan = case.plan(&ticket(5, &vec![0; k], &order));
        case.width(&plan, 5, "k sequential events");
    }
}

/// Says: 3..4, 1..3, 0..1 are uncorrelated, and 4..5, 3..4, 0..2 are a decoupling; neither is widest.
/// Committing the first event's own window then widens the others.
fn narrower(case: &mut Stored) {
    let after = case.commit(&record(three_in_sequence(), &[(3, 4), (1, 3), (0, 1)]), 1, 3, 4);
    case.windows(&after, &[(3, 4), (1, 3), (0, 1)], "nothing is left to widen");
    let after = case.commit(&record(three_in_sequence(), &[(4, 5), (3, 4), (0, 2)]), 1, 4, 5);
    case.windows(&after, &[(4, 5), (2, 4), (0, 2)], "one tick is left to widen");
}

/// Says: 0..5, 5..5, 5..5 for the sequential events. That is fit when the first comes first; with the order
/// of figure 1 it is not.
fn other_order(case: &mut Stored) {
    let windows = [(0, 5), (5, 5), (5, 5)];
    let after = case.commit(&record(three_in_sequence(), &windows), 2, 5, 5);
    case.refused(&after, "fit for the other order only");
    let reversed = ticket(5, &[3; 3], &[(2, 1, 0), (3, 2, 0)]);
    let after = case.commit(&record(reversed, &windows), 2, 5, 5);
    case.windows(&after, &windows, "fit for the other order");
}

/// Minutes after 8:00, up to noon. Chris: project 1 to 2, then lecture 3 to 4 from 10:00 to 12:00. Ann: run 5
/// to 6, then project 7 to 8. Bill: run 9 to 10, then homework 11 to 12. Ann and Bill run together; Ann's
/// project waits for Chris's.
fn calendar() -> Ticket {
    let mut rules = Vec::new();
    let mut between = |from: u8, to: u8, low: i32, high: i32| rules.extend([(from, to, high), (to, from, -low)]);
    between(1, 2, 90, 120);
    between(0, 3, 120, 120);
    between(3, 4, 120, 120);
    between(5, 6, 60, 60);
    between(7, 8, 90, 120);
    between(9, 10, 60, 60);
    between(11, 12, 60, 180);
    between(5, 9, 0, 0);
    rules.extend([(3, 2, 0), (7, 6, 0), (11, 10, 0), (7, 2, 0)]);
    ticket(240, &[1, 1, 1, 1, 2, 2, 2, 2, 3, 3, 3, 3], &rules)
}

/// Figure 1(b), says: earliest and latest times; Chris's project starts 8:00 to 8:30 and ends 9:30 to 10:00,
/// both runs start 8:00 to 9:30, homework starts 9:00 to 11:00.
fn calendar_table(case: &mut Stored) {
    let table = case.table(&calendar());
    case.says(table[0] == [0, 30, 120, 120, 240, 90, 150, 150, 240, 90, 150, 180, 240], "latest times");
    let earliest: Vec<i32> = table.iter().map(|row| -row[0]).collect();
    case.says(earliest == [0, 0, 90, 120, 240, 0, 60, 90, 180, 0, 60, 60, 120], "earliest times");
}

/// Figure 1(d), says: 8:00 to 9:30 and the lecture for Chris, run 8:00 to 9:00 and project 9:30 to 11:00 for
/// Ann is a schedule, here with homework 9:00 to 12:00. Ann running at 8:00 and Bill at 9:00 is none.
fn calendar_schedules(case: &mut Stored) {
    let points = |ticks: [u32; 12]| ticks.map(|tick| (tick, tick));
    let together = points([0, 90, 120, 240, 0, 60, 90, 180, 0, 60, 60, 240]);
    let after = case.commit(&record(calendar(), &together), 5, 0, 0);
    case.says(after.is_some(), "a joint schedule");
    let apart = points([0, 90, 120, 240, 0, 60, 90, 180, 60, 120, 120, 240]);
    let after = case.commit(&record(calendar(), &apart), 5, 0, 0);
    case.refused(&after, "runs apart");
}

/// Says: earliest to latest sums to 780 minutes, flexibility is 180 minutes.
fn calendar_width(case: &mut Stored) {
    let table = case.table(&calendar());
    let sum: i32 = (1..=12).map(|k| table[0][k] + table[k][0]).sum();
    case.says(sum == 780, "sum of earliest to latest");
    let plan = case.plan(&calendar());
    case.width(&plan, 180, "flexibility of the calendar");
}
