//! Callers and views (02, change 11): views byte by byte, who may commit what, refusals in their order, and records that are
//! alike for a device, all worked out by hand.

use super::{record, section, three_in_sequence, ticket, two_trains, unread, Stored};
use crate::model::{calls, reading, writing, Commitment, Record, Solver, Ticket, Window, DATABASE, DEVICES};
use crate::trial::{Lengths, ENOUGH};

/// Number, flag, open and close of an event.
type Shown = (u8, u8, u32, u32);

/// What each device is shown.
type Views<'a> = [&'a [Shown]; DEVICES];

/// Caller, event, open and close of a commitment.
type Call = (u32, u32, u32, u32);

/// Numbers that are no device.
const ABOVE: [u32; 10] = [5, 6, 255, 256, 257, 65_536, 0x0100_0000, 0x7fff_ffff, 0x8000_0000, u32::MAX];

fn by((caller, event, open, close): Call) -> Commitment {
    Commitment { caller, event, open, close }
}

/// The bytes of a view.
fn listed(events: &[Shown]) -> Vec<u8> {
    let fields =
        |&(event, flag, open, close): &Shown| [&[event, flag][..], &open.to_le_bytes(), &close.to_le_bytes()].concat();
    let count = (events.len() as u16).to_le_bytes().to_vec();
    [count].into_iter().chain(events.iter().map(fields)).flatten().collect()
}

/// The record of a ticket with flag, open and close of each event, and with these counts.
fn flagged(of: Ticket, windows: &[(u8, u32, u32)], counts: [u32; DEVICES]) -> Vec<u8> {
    let committed = windows.iter().map(|&(flag, _, _)| flag == 1).collect();
    let windows = windows.iter().map(|&(_, open, close)| Window { open, close }).collect();
    writing::record(&Record { ticket: of, committed, windows, counts })
}

impl Stored<'_> {
    /// The record's views are these.
    fn viewed_as(&mut self, record: &[u8], views: Views, what: &str) {
        let tiny = reading::record(record).is_ok_and(|r| r.ticket.events() <= 3 && r.ticket.horizon <= 20);
        let mut given = Vec::new();
        for (caller, events) in (0..).zip(views) {
            let view = self.both_solvers(tiny, |trial| trial.view(record, caller, calls::VIEW));
            self.says(view == Some(listed(events)), what);
            given.extend(view);
        }
        self.says(given.len() == DEVICES, what);
        if given.len() == DEVICES {
            self.trial.are_views(record, &given);
        }
    }

    /// The number that is answered with an output of this length, by the model; the library was compared with it.
    fn unviewed(&mut self, bytes: &[u8], caller: u32, length: usize, number: u32, what: &str) {
        self.trial.view(bytes, caller, length);
        let view = || calls::view(bytes, caller, Solver::Flow);
        self.says(calls::hand_out_view(view, &mut vec![0; length]).0 == number, what);
    }

    /// The number that a call is answered with enough memory, 0 too.
    fn answered(&mut self, record: &[u8], call: Call, number: u32, what: &str) {
        let after = self.called(record, by(call));
        self.says(after.is_some() == (number == 0), what);
        let given = calls::commit(record, by(call), Solver::Flow);
        self.says(given.err().unwrap_or(0) == number, what);
    }
}

/// P1's plan, its latest plan and P2: the camera has event 1, the lamps event 2, wheel and stage none, and the database sees
/// both.
pub fn example_1(case: &mut Stored) {
    let plan = case.plan(&two_trains()).unwrap_or_default();
    let views: [&[u8]; DEVICES] = [
        b"\x01\0\x01\0\x05\0\0\0\x0b\0\0\0",
        b"\0\0",
        b"\x01\0\x02\0\x09\0\0\0\x09\0\0\0",
        b"\0\0",
        b"\x02\0\x01\0\x05\0\0\0\x0b\0\0\0\x02\0\x09\0\0\0\x09\0\0\0",
    ];
    for (caller, wanted) in (0..).zip(views) {
        let view = case.trial.view(&plan, caller, calls::VIEW);
        case.says(view.as_deref() == Some(wanted), "the bytes of P1's views");
    }
    let (first, second) = ((1, 0, 5, 11), (2, 0, 9, 9));
    case.viewed_as(&plan, [&[first], &[], &[second], &[], &[first, second]], "P1's views");
    let latest = case.plan_latest(&two_trains()).unwrap_or_default();
    let (first, second) = ((1, 0, 9, 15), (2, 0, 13, 13));
    case.viewed_as(&latest, [&[first], &[], &[second], &[], &[first, second]], "views of P1's latest plan");
    let after = case.called(&plan, by((0, 1, 10, 10))).unwrap_or_default();
    let view = case.trial.view(&after, 0, calls::VIEW);
    case.says(view.as_deref() == Some(b"\x01\0\x01\x01\x0a\0\0\0\x0a\0\0\0"), "the bytes of the camera's view of P2");
    let (first, second) = ((1, 1, 10, 10), (2, 0, 8, 14));
    case.viewed_as(&after, [&[first], &[], &[second], &[], &[first, second]], "P2's views");
    let wider = record(two_trains(), &[(15, 15), (13, 19)]);
    let after = case.called(&wider, by((2, 2, 13, 13))).unwrap_or_default();
    let (first, second) = ((1, 0, 9, 15), (2, 1, 13, 13));
    case.viewed_as(&after, [&[first], &[], &[second], &[], &[first, second]], "P3's views");
}

/// P4 to P8 and P10: no event, or the stage's alone, which the stage and the database see.
pub fn examples_4_to_10(case: &mut Stored) {
    let mut stage = |of: &Ticket, events: &[Shown], what: &str| {
        let plan = case.plan(of).unwrap_or_default();
        case.viewed_as(&plan, [&[], &[], &[], events, events], what);
        plan
    };
    let p4 = stage(&three_in_sequence(), &[(1, 0, 0, 5), (2, 0, 0, 0), (3, 0, 0, 0)], "P4's views");
    stage(&ticket(10, &[3; 2], &[(1, 2, -1), (2, 1, 1)]), &[(1, 0, 1, 1), (2, 0, 0, 0)], "P6's views");
    stage(&ticket(10, &[3], &[(1, 0, -10)]), &[(1, 0, 10, 10)], "P7's views");
    stage(&ticket(0, &[], &[]), &[], "P8's views");
    stage(&ticket(5, &[3; 2], &[]), &[(1, 0, 0, 5), (2, 0, 0, 5)], "P10's views");
    let p5 = case.called(&p4, by((3, 1, 2, 2))).unwrap_or_default();
    let events: &[Shown] = &[(1, 1, 2, 2), (2, 0, 0, 2), (3, 0, 0, 0)];
    case.viewed_as(&p5, [&[], &[], &[], events, events], "P5's views");
}

/// One event of each device, free and committed: each device commits its own and no other, the database too, whether the
/// window named is inside the event's or not.
pub fn own_events(case: &mut Stored) {
    let owners = [4, 2, 0, 3, 1];
    for flag in [0, 1] {
        let windows = [(flag, 1, 8); 5];
        let bytes = flagged(ticket(9, &owners, &[]), &windows, [1; DEVICES]);
        for (event, owner) in (1..).zip(owners) {
            for caller in 0..DEVICES as u32 {
                let is_own = caller == owner as u32;
                let (inside, outside) = if is_own { (0, 13) } else { (20, 20) };
                case.answered(&bytes, (caller, event, 2, 5), inside, "inside the window");
                case.answered(&bytes, (caller, event, 1, 8), inside, "the window that there is");
                case.answered(&bytes, (caller, event, 0, 9), outside, "outside of the window");
                case.answered(&bytes, (caller, event, 5, 2), outside, "no window");
            }
        }
        let seen: Vec<Shown> = (1..=5).map(|event| (event, flag, 1, 8)).collect();
        let views: Views = [&seen[2..3], &seen[4..], &seen[1..2], &seen[3..4], &seen];
        case.viewed_as(&bytes, views, "one event of each device");
    }
}

/// Calls of everyone by turns from P1's plan. What is refused changes no view.
pub fn by_turns(case: &mut Stored) {
    let mut current = case.plan(&two_trains()).unwrap_or_default();
    let mut seen: [Shown; 2] = [(1, 0, 5, 11), (2, 0, 9, 9)];
    let steps: [(Call, Result<[Shown; 2], u32>); 18] = [
        ((2, 1, 10, 10), Err(20)),
        ((4, 1, 10, 10), Err(20)),
        ((0, 2, 9, 9), Err(20)),
        ((0, 2, 8, 9), Err(20)),
        ((1, 1, 10, 10), Err(20)),
        ((5, 1, 10, 10), Err(19)),
        ((0, 1, 6, 10), Ok([(1, 1, 6, 10), (2, 0, 8, 10)])),
        ((2, 1, 6, 10), Err(20)),
        ((4, 1, 7, 9), Err(20)),
        ((0, 1, 5, 10), Err(13)),
        ((0, 1, 10, 10), Ok([(1, 1, 10, 10), (2, 0, 8, 14)])),
        ((0, 2, 8, 14), Err(20)),
        ((256, 1, 10, 10), Err(19)),
        ((2, 2, 9, 13), Ok([(1, 1, 10, 10), (2, 1, 9, 13)])),
        ((3, 2, 9, 13), Err(20)),
        ((2, 0, 9, 13), Err(20)),
        ((2, 3, 9, 13), Err(20)),
        ((2, 2, 9, 9), Ok([(1, 1, 10, 10), (2, 1, 9, 9)])),
    ];
    for (call, expected) in steps {
        match expected {
            Err(number) => case.answered(&current, call, number, "a call that is refused"),
            Ok(after) => {
                current = case.called(&current, by(call)).unwrap_or_default();
                seen = after;
            }
        }
        case.viewed_as(&current, [&seen[..1], &[], &seen[1..], &[], &seen], "views by turns");
    }
    case.says(current.ends_with(&section([2, 0, 2, 0, 0])), "two commitments of each");
}

/// Bytes that are no record with fit windows, and their numbers 1 to 8, 14 and 15.
fn unfit() -> Vec<(Vec<u8>, u32)> {
    let fit = flagged(two_trains(), &[(1, 5, 11), (0, 9, 9)], [65_535; DEVICES]);
    let mut bytes: Vec<(Vec<u8>, u32)> = unread().into_iter().filter(|&(_, number)| number < 8).collect();
    bytes.extend([
        (fit[..fit.len() - 1].to_vec(), 1),
        ([&fit[..], &[0]].concat(), 8),
        (flagged(two_trains(), &[(0, 5, 11), (0, 9, 21)], [65_535; DEVICES]), 14),
        (flagged(two_trains(), &[(1, 5, 15), (0, 8, 19)], [0; DEVICES]), 14),
        (flagged(two_trains(), &[(1, 5, 15), (0, 8, 19)], [65_535; DEVICES]), 15),
    ]);
    bytes
}

/// 10; 19; 1 to 8, 14 and 15 of the record; 20; 13; 18.
pub fn refusals(case: &mut Stored) {
    let full = flagged(two_trains(), &[(1, 5, 11), (0, 9, 9)], [65_535; DEVICES]);
    let mut bytes = unfit();
    bytes.push((full.clone(), 20));
    // Another's event inside and outside of its window, and none.
    let anothers: [Call; 7] = [
        (0, 2, 9, 9),
        (0, 2, 8, 9),
        (2, 1, 10, 10),
        (4, 1, 10, 10),
        (0, 0, 9, 9),
        (0, 3, 9, 9),
        (2, u32::MAX, u32::MAX, 0),
    ];
    for (bytes, number) in &bytes {
        for call in anothers {
            case.answered(bytes, call, *number, "the record's refusals before 20");
        }
        for caller in ABOVE {
            for (event, open, close) in [(1, 10, 10), (2, 9, 9), (0, 9, 1)] {
                case.answered(bytes, (caller, event, open, close), 19, "a caller above 4");
            }
        }
        for (out, scratch) in [(1, 0), (0, 1), (1, 1), (calls::RECORD, calls::SCRATCH)] {
            let lengths = Lengths { out: ENOUGH.out - out, scratch: ENOUGH.scratch - scratch };
            for caller in [0, 2, 4, 5, 256, u32::MAX] {
                let after = case.trial.commit(bytes, by((caller, 1, 10, 10)), lengths);
                case.refused(&after, "10 before 19 and all others");
            }
        }
    }
    for (open, close) in [(4, 10), (5, 12), (11, 5), (0, u32::MAX)] {
        case.answered(&full, (0, 1, open, close), 13, "13 before 18");
    }
    case.answered(&full, (0, 1, 10, 10), 18, "18 after all others");
    case.answered(&full, (2, 2, 9, 9), 18, "18 of a free event");
    let roomy = flagged(two_trains(), &[(1, 5, 11), (0, 9, 9)], [65_534, 65_535, 65_535, 65_535, 65_535]);
    case.answered(&roomy, (2, 1, 10, 10), 20, "another's event, whatever the counts are");
    case.answered(&roomy, (0, 1, 10, 10), 0, "the camera has room");
    // P8 has no event.
    let none = flagged(ticket(0, &[], &[]), &[], [65_535; DEVICES]);
    for caller in 0..DEVICES as u32 {
        for event in [0, 1, 40, 41, 256, u32::MAX] {
            case.answered(&none, (caller, event, 0, 0), 20, "no such event");
        }
    }
    case.answered(&none, (5, 1, 0, 0), 19, "no such event, and no device");
}

/// 10; 19; 1 to 8, 14 and 15 of the record. A device without events is answered as the others are.
pub fn view_refusals(case: &mut Stored) {
    let mut bytes = unfit();
    bytes.push((flagged(two_trains(), &[(1, 5, 11), (0, 9, 9)], [65_535; DEVICES]), 0));
    bytes.push((flagged(ticket(0, &[], &[]), &[], [0; DEVICES]), 0));
    for (bytes, number) in &bytes {
        for length in [0, 1, 2, 11, 12, 22, 362, 401] {
            for caller in [0, 1, 2, 4, 5, 256, u32::MAX] {
                case.unviewed(bytes, caller, length, 10, "10 before all others");
            }
        }
        for length in [402, 403, 1_958, 4_000] {
            for caller in ABOVE {
                case.unviewed(bytes, caller, length, 19, "a caller above 4");
            }
            for caller in 0..DEVICES as u32 {
                case.unviewed(bytes, caller, length, *number, "as a commitment is answered, up to 15");
            }
        }
    }
    // Windows that are not fit by a rule of other devices alone: 15 for all.
    let windows = [(0, 0, 9), (0, 0, 5), (0, 5, 9)];
    let apart = flagged(ticket(9, &[0, 1, 2], &[(2, 3, 8)]), &windows, [0; DEVICES]);
    let joined = flagged(ticket(9, &[0, 1, 2], &[(2, 3, 9)]), &windows, [0; DEVICES]);
    for caller in 0..DEVICES as u32 {
        case.unviewed(&apart, caller, calls::VIEW, 15, "another's rule is broken");
        case.unviewed(&joined, caller, calls::VIEW, 0, "another's rule is kept");
    }
    // A ticket is no record.
    case.unviewed(&writing::ticket(&two_trains()), 0, calls::VIEW, 1, "a ticket");
}

/// 40 events: 402 bytes of one device's, and for the database of all devices'; event 40 alone; every fifth one; the largest
/// record.
pub fn forty(case: &mut Stored) {
    let windows: Vec<(u8, u32, u32)> = (0..40).map(|k| (k as u8 % 2, 25_000 * k, 1_000_000 - k)).collect();
    let seen: Vec<Shown> =
        (1..).zip(&windows).map(|(event, &(flag, open, close))| (event, flag, open, close)).collect();
    for device in 0..DEVICES {
        let alone = flagged(ticket(1_000_000, &[device as u8; 40], &[]), &windows, [40; DEVICES]);
        let mut views: Views = [&[]; DEVICES];
        views[device] = &seen;
        views[DATABASE as usize] = &seen;
        case.viewed_as(&alone, views, "40 events of one device");
        let view = case.trial.view(&alone, device as u32, calls::VIEW);
        case.says(view.is_some_and(|view| view.len() == 402 && calls::VIEW == 402), "402 bytes");
    }
    let mut owners = [1; 40];
    owners[39] = 2;
    let last = flagged(ticket(1_000_000, &owners, &[]), &windows, [40; DEVICES]);
    case.viewed_as(&last, [&[], &seen[..39], &seen[39..], &[], &seen], "event 40 alone");
    let owners: Vec<u8> = (0..40).map(|k| k % 5).collect();
    let largest = flagged(ticket(1_000_000, &owners, &[(0, 1, 1_000_000); 256]), &windows, [65_535; DEVICES]);
    let of = |device: usize| -> Vec<Shown> { seen.iter().skip(device).step_by(5).copied().collect() };
    let [a, b, c, d] = [0, 1, 2, 3].map(of);
    case.viewed_as(&largest, [&a, &b, &c, &d, &seen], "the largest record");
}

/// The session of the repository, with the exposures and the first image committed.
pub fn session(case: &mut Stored) {
    let bytes = include_bytes!("../../../examples/tickets/session.ticket");
    let Ok(session) = reading::ticket(bytes) else { return case.says(false, "the session's ticket is read") };
    let mut current = case.plan(&session).unwrap_or_default();
    let camera: &[Shown] = &[(4, 0, 540, 590), (7, 0, 650, 790)];
    let (wheel, lamps): (&[Shown], &[Shown]) =
        (&[(2, 0, 15, 535), (6, 0, 645, 645)], &[(3, 0, 250, 490), (9, 0, 850, 850)]);
    let stage: &[Shown] = &[(1, 0, 30, 200)];
    let mut all = [camera, wheel, lamps, stage, &[(5, 0, 630, 630), (8, 0, 850, 850)]].concat();
    all.sort();
    case.viewed_as(&current, [camera, wheel, lamps, stage, &all], "the session's views");
    for call in [(4, 4, 550, 560), (0, 5, 630, 630), (1, 4, 540, 590), (2, 1, 30, 200)] {
        case.answered(&current, call, 20, "another's event of the session");
    }
    for call in [(0, 4, 550, 560), (4, 5, 630, 630), (0, 7, 700, 750)] {
        current = case.called(&current, by(call)).unwrap_or_default();
    }
    let view = case.trial.view(&current, 0, calls::VIEW);
    let camera: &[Shown] = &[(4, 1, 550, 560), (7, 1, 700, 750)];
    case.says(view == Some(listed(camera)), "the camera's view after its commitments");
    case.says(current.ends_with(&section([2, 0, 0, 0, 1])), "two commitments of the camera and one of the database");
}

/// What is not a device's own in a record: horizon, number of events, owner of the others, their flag, open and close, rules,
/// and the other devices' counts.
struct Others<'a> {
    horizon: u32,
    events: u8,
    owner: &'a dyn Fn(u8) -> u8,
    window: (u8, u32, u32),
    rules: &'a [(u8, u8, i32)],
    count: u32,
}

/// The record of a device's own events and its count beside these others.
fn beside(others: Others, device: u8, own: &[Shown], count: u32) -> Vec<u8> {
    let mine = |event: u8| own.iter().find(|shown| shown.0 == event);
    let owner = |event: u8| mine(event).map_or((others.owner)(event), |_| device);
    let window = |event: u8| mine(event).map_or(others.window, |&(_, flag, open, close)| (flag, open, close));
    let owners: Vec<u8> = (1..=others.events).map(owner).collect();
    let windows: Vec<(u8, u32, u32)> = (1..=others.events).map(window).collect();
    let mut counts = [others.count; DEVICES];
    counts[device as usize] = count;
    flagged(ticket(others.horizon, &owners, others.rules), &windows, counts)
}

/// Records with fit windows that are alike for a device: it has these events and this count. All else is unlike.
fn alike(device: u8, own: &[Shown], count: u32) -> Vec<Vec<u8>> {
    let last = own.last().map_or(0, |&(event, ..)| event);
    let latest = own.iter().map(|&(_, _, _, close)| close).max().unwrap_or(0);
    let next = |step: u8| (device + 1 + step % 4) % 5;
    let of = |&(event, _, open, close): &Shown| [(0, event, close as i32), (event, 0, -(open as i32))];
    let limits: Vec<(u8, u8, i32)> = own.iter().flat_map(of).collect();
    let least = Others { horizon: latest, events: last, owner: &|_| next(0), window: (0, 0, 0), rules: &[], count: 0 };
    let wide = (1, 0, 1_000_000);
    let free = [(0, 40, 1_000_000); 256];
    let others = [
        Others { horizon: 1_000_000, owner: &|_| next(3), window: wide, count: 65_535, ..least },
        Others { horizon: latest + 5, events: 40, owner: &next, window: (0, latest, latest), rules: &free, count: 7 },
        Others { events: 40, owner: &|_| next(1), window: (1, 0, latest), rules: &limits, count: 65_534, ..least },
        Others { horizon: latest + 1, events: 40, window: (0, latest + 1, latest + 1), rules: &[(40, 0, -1)], ..least },
        least,
    ];
    others.into_iter().map(|others| beside(others, device, own, count)).collect()
}

/// Event, open and close of a commitment, and the number that it is answered.
type Told = ((u32, u32, u32), u32);

/// For each device but the database: no event, one, two between others, and two next to each other, with counts up to 65,535.
/// Its views of such records are the same, and the numbers of its commitments to own events, to numbers of others' and of
/// none.
pub fn pairs(case: &mut Stored) {
    let sets: [&[Shown]; 4] =
        [&[], &[(1, 0, 5, 11)], &[(2, 1, 8, 14), (5, 0, 0, 9)], &[(38, 0, 3, 3), (39, 1, 0, 1_000)]];
    for (own, count) in sets.into_iter().flat_map(|own| [1, 65_534, 65_535].map(|count| (own, count))) {
        let accepted = if count == 65_535 { 18 } else { 0 };
        let mut told: Vec<Told> = Vec::new();
        for &(event, _, open, close) in own {
            let event = event as u32;
            told.extend([((event, open, close), accepted), ((event, close, close), accepted)]);
            told.extend([((event, open, close + 1), 13), ((event, close + 1, open), 13)]);
        }
        let others = [0, 1, 3, 4, 6, 40, 41, 257, u32::MAX].into_iter();
        for event in others.filter(|&event| own.iter().all(|shown| shown.0 as u32 != event)) {
            told.extend([((event, 0, 0), 20), ((event, 5, 11), 20), ((event, 9, 1), 20)]);
        }
        for device in 0..DATABASE {
            alike_for(case, device as u32, own, &alike(device, own, count), &told);
        }
    }
}

/// Each of these records is alike for the device to the next one.
fn alike_for(case: &mut Stored, device: u32, own: &[Shown], records: &[Vec<u8>], told: &[Told]) {
    for pair in records.windows(2) {
        let pair = [&pair[0][..], &pair[1]];
        case.says(pair[0] != pair[1], "two records");
        case.trial.are_viewed_alike(pair, device);
        for &((event, open, close), number) in told {
            let commitment = by((device, event, open, close));
            case.trial.are_answered_alike(pair, commitment);
            let given = calls::commit(pair[0], commitment, Solver::Flow).err().unwrap_or(0);
            case.says(given == number, "a number that does not depend on others");
        }
    }
    for record in records {
        let view = case.trial.view(record, device, calls::VIEW);
        case.says(view == Some(listed(own)), "a view that does not depend on others");
    }
}
