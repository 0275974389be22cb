//! One count for each device (02, change 5): whole records in plain values, the counts after each commitment of a run, and
//! what is refused in their bytes, worked out by hand.

use super::{by_owner, handed, section, three_in_sequence, ticket, two_trains, Stored};
use crate::model::{calls, reading, writing, Prefer, Solver, Ticket, Window, BOTH};
use crate::trial::{Lengths, ENOUGH};

/// Flag, open and close of an event.
type Flagged = (u8, u32, u32);

/// Event, open and close of a commitment; then the counts after it, or the number that it is refused under.
type Step = ((u32, u32, u32), Result<[u16; 5], u32>);

/// The record of a ticket with these windows, up to its counts.
fn before_counts(ticket: &Ticket, windows: &[Flagged]) -> Vec<u8> {
    let mut bytes = writing::ticket(ticket);
    bytes.extend((windows.len() as u16).to_le_bytes());
    for &(flag, open, close) in windows {
        bytes.push(flag);
        bytes.extend(open.to_le_bytes());
        bytes.extend(close.to_le_bytes());
    }
    bytes
}

fn whole(ticket: &Ticket, windows: &[Flagged], counts: [u16; 5]) -> Vec<u8> {
    [before_counts(ticket, windows), section(counts)].concat()
}

/// P1's record with these windows and counts, byte by byte.
fn whole_1(windows: [[u8; 9]; 2], counts: [u8; 12]) -> Vec<u8> {
    let fields: [&[u8]; 13] = [
        &[20, 0, 0, 0],
        &[2, 0, 0, 2],
        &[6, 0],
        &[0, 1, 15, 0, 0, 0],
        &[1, 0, 251, 255, 255, 255],
        &[0, 2, 20, 0, 0, 0],
        &[2, 0, 248, 255, 255, 255],
        &[1, 2, 4, 0, 0, 0],
        &[2, 1, 2, 0, 0, 0],
        &[2, 0],
        &windows[0],
        &windows[1],
        &counts,
    ];
    fields.concat()
}

impl Stored<'_> {
    /// Both plans, whole.
    fn planned(&mut self, ticket: &Ticket, plan: &[u8], latest: &[u8], what: &str) {
        let (earliest_given, latest_given) = (self.plan(ticket), self.plan_latest(ticket));
        self.says(earliest_given.as_deref() == Some(plan), what);
        self.says(latest_given.as_deref() == Some(latest), what);
    }

    /// The whole record after a commitment.
    fn committed(&mut self, record: &[u8], (event, open, close): (u32, u32, u32), expected: &[u8], what: &str) {
        let after = self.commit(record, event, open, close);
        self.says(after.as_deref() == Some(expected), what);
    }

    /// A run on a ticket of these owners without rules and a session of 10 ticks: no window changes but the one named. The
    /// record after each step, whole; in it the counts of the steps are added to those of the start.
    fn counted(&mut self, owners: &[u8], start: [u16; 5], steps: &[Step], what: &str) {
        let ticket = ticket(10, owners, &[]);
        let mut windows: Vec<Flagged> = vec![(0, 0, 10); owners.len()];
        let mut current = whole(&ticket, &windows, start);
        for &(commitment, expected) in steps {
            match expected {
                Err(number) => self.uncommitted(&current, commitment, number, what),
                Ok(accepted) => {
                    let (event, open, close) = commitment;
                    windows[event as usize - 1] = (1, open, close);
                    let counts = std::array::from_fn(|device| start[device] + accepted[device]);
                    let expected = whole(&ticket, &windows, counts);
                    self.committed(&current, commitment, &expected, what);
                    current = expected;
                }
            }
        }
    }

    /// The number that a record is refused under where it is read, by itself and for a commitment of event 1 to a tick of
    /// its window; 0 where it comes back as it was. By the model; the library was compared with it.
    fn read_again(&mut self, record: &[u8], tick: u32, number: u32, what: &str) {
        let given = calls::rewrite_record(record, &mut vec![0; calls::RECORD]).0;
        self.says(given == number, what);
        let again = self.trial.rewrite_record(record, calls::RECORD);
        self.says(again.as_deref() == (number == 0).then_some(record), what);
        let commitment = by_owner(record, (1, tick, tick));
        self.says(calls::commit(record, commitment, Solver::Flow).err().unwrap_or(0) == number, what);
        let after = self.trial.commit(record, commitment, ENOUGH);
        self.says(after.is_some() == (number == 0), what);
    }
}

/// Plans have five zeros; a commitment of P1's event 1 is the camera's, one of its event 2 the lamps', those of P4 the
/// stage's.
pub fn whole_records(case: &mut Stored) {
    let zeros = [5, 0, 0, 0, 0, 0, 0, 0, 0, 0, 0, 0];
    let plan = whole_1([[0, 5, 0, 0, 0, 11, 0, 0, 0], [0, 9, 0, 0, 0, 9, 0, 0, 0]], zeros);
    let latest = whole_1([[0, 9, 0, 0, 0, 15, 0, 0, 0], [0, 13, 0, 0, 0, 13, 0, 0, 0]], zeros);
    case.says(plan.len() == 78, "22 + 10 x 2 + 6 x 6 bytes");
    case.planned(&two_trains(), &plan, &latest, "P1's plans");
    let first = [1, 10, 0, 0, 0, 10, 0, 0, 0];
    let second = [1, 9, 0, 0, 0, 13, 0, 0, 0];
    let p2 = whole_1([first, [0, 8, 0, 0, 0, 14, 0, 0, 0]], [5, 0, 1, 0, 0, 0, 0, 0, 0, 0, 0, 0]);
    case.committed(&plan, (1, 10, 10), &p2, "P2");
    let both = whole_1([first, second], [5, 0, 1, 0, 0, 0, 1, 0, 0, 0, 0, 0]);
    case.committed(&p2, (2, 9, 13), &both, "P2, then event 2");
    let again = whole_1([first, second], [5, 0, 2, 0, 0, 0, 1, 0, 0, 0, 0, 0]);
    case.committed(&both, (1, 10, 10), &again, "P2, then event 2, then event 1 again");
    let third = [1, 13, 0, 0, 0, 13, 0, 0, 0];
    let p3 = whole_1([[0, 9, 0, 0, 0, 15, 0, 0, 0], third], [5, 0, 0, 0, 0, 0, 1, 0, 0, 0, 0, 0]);
    case.committed(&latest, (2, 13, 13), &p3, "P1's latest plan, then event 2");
    let wider = whole_1([[0, 15, 0, 0, 0, 15, 0, 0, 0], [0, 13, 0, 0, 0, 19, 0, 0, 0]], zeros);
    case.committed(&wider, (2, 13, 13), &p3, "P3");

    let of_stage = |ticket: &Ticket, windows: &[Flagged], count| whole(ticket, windows, [0, 0, 0, count, 0]);
    let p4 = three_in_sequence();
    let plan = of_stage(&p4, &[(0, 0, 5), (0, 0, 0), (0, 0, 0)], 0);
    case.planned(&p4, &plan, &of_stage(&p4, &[(0, 5, 5), (0, 5, 5), (0, 0, 5)], 0), "P4's plans");
    case.committed(&plan, (1, 2, 2), &of_stage(&p4, &[(1, 2, 2), (0, 0, 2), (0, 0, 0)], 1), "P5");
    let p6 = ticket(10, &[3, 3], &[(1, 2, -1), (2, 1, 1)]);
    let plan = of_stage(&p6, &[(0, 1, 1), (0, 0, 0)], 0);
    case.planned(&p6, &plan, &of_stage(&p6, &[(0, 10, 10), (0, 9, 9)], 0), "P6's plans");
    let p7 = ticket(10, &[3], &[(1, 0, -10)]);
    let plan = of_stage(&p7, &[(0, 10, 10)], 0);
    case.planned(&p7, &plan, &plan, "P7's plans");
    let p8 = [[0; 10].to_vec(), vec![5], vec![0; 11]].concat();
    case.planned(&ticket(0, &[], &[]), &p8, &p8, "P8's plans: 22 bytes");
    let p10 = ticket(5, &[3, 3], &[]);
    let plan = of_stage(&p10, &[(0, 0, 5), (0, 0, 5)], 0);
    case.planned(&p10, &plan, &plan, "P10's plans");
}

/// All five devices, two of them with one event; what is refused counts for nobody. From zeros, from counts of any size,
/// and from counts that the run brings to 65,535.
pub fn each_device(case: &mut Stored) {
    let owners = [4, 2, 0, 3, 1, 0, 2, 4];
    let steps: [Step; 19] = [
        ((1, 2, 8), Ok([0, 0, 0, 0, 1])),
        ((3, 0, 10), Ok([1, 0, 0, 0, 1])),
        ((6, 1, 9), Ok([2, 0, 0, 0, 1])),
        ((3, 4, 4), Ok([3, 0, 0, 0, 1])),
        ((2, 5, 5), Ok([3, 0, 1, 0, 1])),
        ((7, 6, 11), Err(13)),
        ((9, 0, 0), Err(20)),
        ((0, 0, 0), Err(20)),
        ((4, 0, 3), Ok([3, 0, 1, 1, 1])),
        ((5, 9, 9), Ok([3, 1, 1, 1, 1])),
        ((5, 9, 9), Ok([3, 2, 1, 1, 1])),
        ((1, 3, 8), Ok([3, 2, 1, 1, 2])),
        ((6, 0, 9), Err(13)),
        ((7, 6, 10), Ok([3, 2, 2, 1, 2])),
        ((4, 1, 1), Ok([3, 2, 2, 2, 2])),
        ((6, 2, 9), Ok([4, 2, 2, 2, 2])),
        ((1, 3, 3), Ok([4, 2, 2, 2, 3])),
        ((8, 0, 10), Ok([4, 2, 2, 2, 4])),
        ((4, 1, 1), Ok([4, 2, 2, 3, 4])),
    ];
    let ticket = ticket(10, &owners, &[]);
    let planned =
        |database: Flagged| whole(&ticket, &owners.map(|o| if o == 4 { database } else { (0, 0, 10) }), [0; 5]);
    case.planned(&ticket, &planned((0, 0, 0)), &planned((0, 10, 10)), "the plans of a ticket with all five devices");
    case.counted(&owners, [0; 5], &steps, "each device's acceptances from zeros");
    case.counted(&owners, [7, 300, 0, 65_000, 12], &steps, "each device's acceptances from elsewhere");
    let full: [Step; 5] = [(1, 3, 3), (2, 5, 5), (3, 4, 4), (4, 1, 1), (5, 9, 9)].map(|again| (again, Err(18)));
    let steps = [&steps[..], &full].concat();
    case.counted(&owners, [65_531, 65_533, 65_533, 65_532, 65_531], &steps, "each device's acceptances up to 65,535");
}

/// In the session of the repository each event commits to the window that it has then.
pub fn session(case: &mut Stored) {
    let bytes = include_bytes!("../../../examples/tickets/session.ticket");
    let Ok(session) = reading::ticket(bytes) else { return case.says(false, "the session's ticket is read") };
    case.says(session.owners == [3, 1, 2, 0, 4, 1, 0, 4, 2], "the session's owners");
    let after: [[u16; 5]; 9] = [
        [0, 0, 0, 1, 0],
        [0, 1, 0, 1, 0],
        [0, 1, 1, 1, 0],
        [1, 1, 1, 1, 0],
        [1, 1, 1, 1, 1],
        [1, 2, 1, 1, 1],
        [2, 2, 1, 1, 1],
        [2, 2, 1, 1, 2],
        [2, 2, 2, 1, 2],
    ];
    for prefer in BOTH {
        let mut current = case.preferred(prefer, &session).unwrap_or_default();
        case.says(current.ends_with(&section([0; 5])), "the session's plans");
        for (event, counts) in (1..).zip(after) {
            let read = reading::record(&current).ok();
            let Some(&Window { open, close }) = read.as_ref().and_then(|record| record.windows.get(event - 1)) else {
                return case.says(false, "a record of the session is read");
            };
            current = case.commit(&current, event as u32, open, close).unwrap_or_default();
            case.says(current.ends_with(&section(counts)), "counts of the session");
        }
    }
}

/// Owners 0 to 4 of five events. A device at 65,535 commits nothing, whether its event is free or committed; the others go
/// on, also where they are at 65,534, and where the five sum to more.
pub fn one_full(case: &mut Stored) {
    let owners = [0, 1, 2, 3, 4];
    let one_more = |device: usize| std::array::from_fn(|other| (other == device) as u16);
    for (device, event) in (0..5).zip(1..) {
        let (next, other) = ((device + 1) % 5, event % 5 + 1);
        let mut counts = [3; 5];
        counts[device] = 65_535;
        let steps: [Step; 4] = [
            ((event, 0, 10), Err(18)),
            ((other, 4, 9), Ok(one_more(next))),
            ((event, 2, 2), Err(18)),
            ((other, 4, 4), Ok(one_more(next).map(|count| 2 * count))),
        ];
        case.counted(&owners, counts, &steps, "one device at 65,535");
        counts[device] = 65_534;
        let both = std::array::from_fn(|other| (other == device || other == next) as u16);
        let steps: [Step; 6] = [
            ((event, 11, 11), Err(13)),
            ((event, 1, 10), Ok(one_more(device))),
            ((event, 1, 10), Err(18)),
            ((event, 0, 10), Err(13)),
            ((other, 0, 10), Ok(both)),
            ((event, 5, 5), Err(18)),
        ];
        case.counted(&owners, counts, &steps, "one device at 65,534");
        let mut counts = [65_535; 5];
        counts[device] = 65_534;
        let steps: [Step; 4] = [
            ((other, 0, 10), Err(18)),
            ((event, 0, 10), Ok(one_more(device))),
            ((event, 0, 10), Err(18)),
            ((other, 5, 5), Err(18)),
        ];
        case.counted(&owners, counts, &steps, "all others at 65,535");
        let step = [((event, 3, 4), Ok(one_more(device)))];
        for counts in [[13_107; 5], [40_000; 5], [65_534; 5]] {
            case.counted(&owners, counts, &step, "counts that sum to 65,535 or more");
        }
    }
    // Of P1's devices, camera and lamps, the first is at 65,535; of those without an event, all are.
    let record = |windows: &[Flagged], counts| whole(&two_trains(), windows, counts);
    let windows = [(0, 5, 10), (0, 8, 9)];
    let camera = record(&windows, [65_535, 0, 7, 0, 0]);
    case.uncommitted(&camera, (1, 5, 10), 18, "the camera at 65,535");
    case.uncommitted(&camera, (1, 4, 10), 13, "13 before 18");
    case.uncommitted(&camera, (3, 5, 10), 20, "20 before 18");
    case.uncommitted(&record(&[(0, 5, 15), (0, 8, 19)], [65_535, 0, 7, 0, 0]), (1, 5, 10), 15, "15 before 18");
    let after = record(&[(0, 5, 11), (1, 9, 9)], [65_535, 0, 8, 0, 0]);
    case.committed(&camera, (2, 9, 9), &after, "the camera at 65,535, and the lamps commit");
    let idle = record(&windows, [0, 65_535, 0, 65_535, 65_535]);
    let after = record(&[(1, 10, 10), (0, 8, 14)], [1, 65_535, 0, 65_535, 65_535]);
    case.committed(&idle, (1, 10, 10), &after, "P2, and devices without an event at 65,535");
}

/// Six events, all committed: three of the camera, two of the lamps, one of the database. Then only some of them, and 40 of
/// one device.
pub fn own_flags(case: &mut Stored) {
    let six = ticket(5, &[0, 0, 0, 2, 2, 4], &[]);
    let with = |counts: [u16; 5]| whole(&six, &[(1, 1, 4); 6], counts);
    let read = [
        [3, 0, 2, 0, 1],
        [4, 1, 3, 1, 2],
        [3, 0, 2, 0, 65_535],
        [3, 65_535, 2, 65_535, 1],
        [256, 256, 256, 256, 256],
        [65_534, 65_535, 65_535, 65_535, 65_535],
    ];
    for counts in read {
        case.read_again(&with(counts), 4, 0, "each device's own flags, and not all six");
    }
    let refused = [
        [2, 0, 2, 0, 1],
        [2, 3, 3, 3, 3],
        [2, 65_535, 65_535, 65_535, 65_535],
        [0, 6, 6, 6, 6],
        [3, 0, 1, 0, 1],
        [6, 6, 1, 6, 6],
        [3, 0, 2, 0, 0],
        [6, 6, 6, 6, 0],
        [6, 0, 0, 0, 0],
        [0, 0, 0, 0, 6],
        [0, 0, 0, 0, 0],
        [1, 0, 2, 0, 3],
        [3, 0, 0, 2, 1],
        [0, 3, 0, 2, 1],
        [3, 2, 1, 0, 0],
    ];
    for counts in refused {
        case.read_again(&with(counts), 4, 14, "a count below the device's own flags");
    }
    let some = [(0, 1, 4), (1, 1, 4), (0, 1, 4), (1, 1, 4), (1, 1, 4), (0, 1, 4)];
    case.read_again(&whole(&six, &some, [1, 0, 2, 0, 0]), 4, 0, "one flag of the camera and two of the lamps");
    for counts in [[2, 0, 1, 0, 0], [0, 0, 3, 0, 0], [3, 0, 0, 0, 0]] {
        case.read_again(&whole(&six, &some, counts), 4, 14, "three in sum, but not by device");
    }
    let free = whole(&six, &[(0, 1, 4); 6], [0; 5]);
    case.read_again(&free, 4, 0, "no flags");
    for device in 0..5u8 {
        let forty = ticket(5, &[device; 40], &[]);
        for (count, number) in [(39, 14), (40, 0), (41, 0)] {
            let mut counts = [0; 5];
            counts[device as usize] = count;
            case.read_again(&whole(&forty, &[(1, 1, 4); 40], counts), 4, number, "40 flags of one device");
            let mut counts = [65_535; 5];
            counts[device as usize] = count;
            case.read_again(&whole(&forty, &[(1, 1, 4); 40], counts), 4, number, "40 flags of one device, others full");
        }
    }
}

/// A device without an event has a count like any other: it is read, and stays. P1 has no event of the filter wheel, the stage
/// and the database, P8 none at all.
pub fn nothing_owned(case: &mut Stored) {
    let nothing = ticket(0, &[], &[]);
    for [a, b, c] in [[0, 0, 0], [1, 2, 3], [65_535, 0, 256], [0, 65_535, 65_534], [65_535; 3]] {
        let record = |windows: &[Flagged], camera, lamps| whole(&two_trains(), windows, [camera, a, lamps, b, c]);
        let plan = record(&[(0, 5, 10), (0, 8, 9)], 0, 0);
        let p2 = record(&[(1, 10, 10), (0, 8, 14)], 1, 0);
        let both = record(&[(1, 10, 10), (1, 8, 14)], 1, 1);
        case.read_again(&plan, 10, 0, "P1's plan with other counts");
        case.committed(&plan, (1, 10, 10), &p2, "P2 with other counts");
        case.committed(&p2, (2, 8, 14), &both, "P2 with other counts, then event 2");
        let empty = whole(&nothing, &[], [a, b, c, b, a]);
        let again = case.trial.rewrite_record(&empty, calls::RECORD);
        case.says(again == Some(empty.clone()), "P8 with other counts");
        for event in [0, 1, 5] {
            case.uncommitted(&empty, (event, 0, 0), 20, "P8 has no event to commit");
        }
    }
}

/// Any number but 5 before the counts is 14, with five counts after it or with as many as it says.
pub fn number_of_counts(case: &mut Stored) {
    let before = before_counts(&two_trains(), &[(1, 5, 10), (0, 8, 9)]);
    for number in [0, 1, 2, 3, 4, 6, 7, 10, 40, 255, 256, 261, 1_280, 1_285, 32_773, 65_535u16] {
        for count in [number.min(1_300), 5] {
            let counts = vec![1u16; count as usize].into_iter().flat_map(u16::to_le_bytes).collect();
            let bytes = [before.clone(), number.to_le_bytes().to_vec(), counts].concat();
            case.read_again(&bytes, 6, 14, "another number than 5");
        }
    }
    // A record with a single number after its windows.
    for (number, refused) in [(0u16, 14), (1, 14), (5, 1), (65_535, 14)] {
        let bytes = [before.clone(), number.to_le_bytes().to_vec()].concat();
        case.read_again(&bytes, 6, refused, "a single number");
    }
}

/// Five events, one of each device, all committed. Each number of the section is 1 until both of its bytes are there; then
/// it is 14 if it is wrong, whatever comes after it.
pub fn fields_in_order(case: &mut Stored) {
    let five = ticket(5, &[0, 1, 2, 3, 4], &[]);
    let before = before_counts(&five, &[(1, 1, 4); 5]);
    let cut: [(&[u8], u32); 27] = [
        (&[], 1),
        (&[5], 1),
        (&[4], 1),
        (&[4, 0], 14),
        (&[5, 1], 14),
        (&[5, 0], 1),
        (&[5, 0, 0], 1),
        (&[5, 0, 0, 0], 14),
        (&[5, 0, 1], 1),
        (&[5, 0, 1, 0], 1),
        (&[5, 0, 1, 0, 0], 1),
        (&[5, 0, 1, 0, 0, 0], 14),
        (&[5, 0, 1, 0, 1], 1),
        (&[5, 0, 1, 0, 1, 0], 1),
        (&[5, 0, 1, 0, 1, 0, 0], 1),
        (&[5, 0, 1, 0, 1, 0, 0, 0], 14),
        (&[5, 0, 1, 0, 1, 0, 1, 0], 1),
        (&[5, 0, 1, 0, 1, 0, 1, 0, 0], 1),
        (&[5, 0, 1, 0, 1, 0, 1, 0, 0, 0], 14),
        (&[5, 0, 1, 0, 1, 0, 1, 0, 1, 0], 1),
        (&[5, 0, 1, 0, 1, 0, 1, 0, 1, 0, 0], 1),
        (&[5, 0, 1, 0, 1, 0, 1, 0, 1, 0, 0, 0], 14),
        (&[5, 0, 1, 0, 1, 0, 1, 0, 1, 0, 1], 1),
        (&[5, 0, 1, 0, 1, 0, 1, 0, 1, 0, 1, 0], 0),
        (&[5, 0, 1, 0, 1, 0, 1, 0, 1, 0, 1, 0, 0], 8),
        (&[5, 0, 1, 0, 1, 0, 1, 0, 1, 0, 0, 0, 0], 14),
        (&[5, 0, 0, 1, 0, 1, 0, 1, 0, 1, 0, 1], 0),
    ];
    for (section, number) in cut {
        case.read_again(&[&before[..], section].concat(), 4, number, "each number of the section in its order");
    }
    // Each number wrong alone, and with all after it; ends at each place, and bytes after the last.
    for wrong in 0..6 {
        let numbers = [5, 1, 1, 1, 1, 1u16];
        let alone: [u16; 6] = std::array::from_fn(|k| if k == wrong { 0 } else { numbers[k] });
        let onward: [u16; 6] = std::array::from_fn(|k| if k >= wrong { 0 } else { numbers[k] });
        for section in [alone, onward] {
            let mut bytes = [before.clone(), section.into_iter().flat_map(u16::to_le_bytes).collect()].concat();
            bytes.extend([7, 7, 7]);
            for length in 0..=15 {
                let number = if length < 2 * wrong + 2 { 1 } else { 14 };
                let cut = &bytes[..before.len() + length];
                case.read_again(cut, 4, number, "14 from the last byte of the wrong number on");
            }
        }
    }
    // What stands before the counts comes before them.
    let wrong = before_counts(&five, &[(1, 1, 4), (1, 1, 4), (1, 1, 4), (1, 1, 4), (2, 1, 4)]);
    case.read_again(&wrong, 4, 14, "a wrong window, and no counts");
    case.read_again(&wrong[..wrong.len() - 1], 4, 1, "a wrong window that is not whole");
    let other = [&writing::ticket(&five)[..], &[4, 0]].concat();
    case.read_again(&other, 4, 14, "windows of four events, and nothing after their number");
}

/// Below 1,958 bytes 10, be the record as short as it may.
pub fn outputs(case: &mut Stored) {
    let tickets = [ticket(0, &[], &[]), ticket(10, &[3], &[(1, 0, -10)]), two_trains(), full_ticket()];
    for ticket in tickets {
        let bytes = writing::ticket(&ticket);
        let record = case.plan(&ticket).unwrap_or_default();
        let length = 22 + 10 * ticket.events() + 6 * ticket.rules.len();
        case.says(record.len() == length, "22 + 10 n + 6 m bytes");
        let values = handed(&record, &[0; 5]);
        let window = reading::record(&record).ok().and_then(|record| record.windows.first().copied());
        for out in [0, 1, 22, length - 1, length, 1_938, 1_947, 1_948, 1_949, 1_956, 1_957, 1_958, 1_959, 4_000] {
            let lengths = Lengths { out, ..ENOUGH };
            let is_enough = out >= 1_958;
            for prefer in BOTH {
                let plan = case.trial.plan(prefer, &bytes, lengths);
                case.says(plan.is_some() == is_enough, "1,958 bytes for a plan");
            }
            if let Some(Window { open, close }) = window {
                let after = case.trial.commit(&record, by_owner(&record, (1, open, close)), lengths);
                case.says(after.is_some() == is_enough, "1,958 bytes for a commitment");
            }
            let again = case.trial.rewrite_record(&record, out);
            case.says(again.is_some() == is_enough, "1,958 bytes for a record read again");
            let written = values.as_ref().and_then(|values| case.trial.write_record(values, out));
            case.says(written.is_some() == is_enough, "1,958 bytes for values");
        }
        for (refused, scratch) in [(&[][..], ENOUGH.scratch), (&bytes[..], ENOUGH.scratch - 1)] {
            let plan = case.trial.plan(Prefer::Earliest, refused, Lengths { out: 1_957, scratch });
            case.refused(&plan, "10 before what else is wrong");
        }
    }
}

/// 40 events, eight of each device, and 256 rules that bind nothing.
fn full_ticket() -> Ticket {
    let owners: Vec<u8> = (0..40).map(|k| k % 5).collect();
    ticket(1_000_000, &owners, &[(0, 1, 1_000_000); 256])
}

/// A record of 1,958 bytes in an output of as many.
pub fn largest(case: &mut Stored) {
    let ticket = full_ticket();
    let mut windows = [(0, 0, 1_000_000); 40];
    let wide = whole(&ticket, &windows, [0; 5]);
    case.says(wide.len() == 1_958 && ENOUGH.out == 1_958, "the largest record");
    let planned = |database: u32| {
        let window = |&owner: &u8| if owner == 4 { (0, database, database) } else { (0, 0, 1_000_000) };
        whole(&ticket, &ticket.owners.iter().map(window).collect::<Vec<_>>(), [0; 5])
    };
    case.planned(&ticket, &planned(0), &planned(1_000_000), "plans of the largest ticket");
    windows[39] = (1, 7, 7);
    let after = whole(&ticket, &windows, [0, 0, 0, 0, 1]);
    case.committed(&wide, (40, 7, 7), &after, "a commitment on the largest record");
    windows[0] = (1, 0, 1_000_000);
    let both = whole(&ticket, &windows, [1, 0, 0, 0, 1]);
    case.committed(&after, (1, 0, 1_000_000), &both, "two commitments on the largest record");
    let committed = |counts| whole(&ticket, &[(1, 0, 1_000_000); 40], counts);
    let right = committed([8; 5]);
    case.read_again(&right, 0, 0, "eight flags of each device");
    for length in 1_946..1_958 {
        case.read_again(&right[..length], 0, 1, "the largest record cut off");
    }
    case.read_again(&[&right[..], &[0]].concat(), 0, 8, "1,959 bytes");
    for device in 0..5 {
        let mut counts = [8; 5];
        counts[device] = 7;
        case.read_again(&committed(counts), 0, 14, "seven of one device");
        counts = [7; 5];
        counts[device] = 40;
        case.read_again(&committed(counts), 0, 14, "seven of the others");
    }
}

/// Each count in its own place, lower byte first; the other four are unlike and stay.
pub fn both_bytes(case: &mut Stored) {
    let five = ticket(5, &[0, 1, 2, 3, 4], &[]);
    let rises = [
        ([0, 0], [1, 0]),
        ([1, 0], [2, 0]),
        ([254, 0], [255, 0]),
        ([255, 0], [0, 1]),
        ([0, 1], [1, 1]),
        ([255, 1], [0, 2]),
        ([255, 127], [0, 128]),
        ([255, 254], [0, 255]),
        ([0, 255], [1, 255]),
        ([254, 255], [255, 255]),
    ];
    for (device, event) in (0..5).zip(1..) {
        let mut windows = [(0, 0, 5); 5];
        let before = before_counts(&five, &windows);
        windows[device] = (1, 2, 3);
        let committed = before_counts(&five, &windows);
        for (count, next) in rises {
            let with = |pair: [u8; 2]| {
                let mut section = [5, 0, 11, 21, 12, 22, 13, 23, 14, 24, 15, 25];
                section[2 + 2 * device..4 + 2 * device].copy_from_slice(&pair);
                section
            };
            let (start, after) = ([&before[..], &with(count)].concat(), [&committed[..], &with(next)].concat());
            case.committed(&start, (event, 2, 3), &after, "both bytes of each count");
        }
    }
}

/// Windows, the counts handed over with them, and those written, if a record is.
type Given = ([Flagged; 6], Vec<u32>, Option<[u16; 5]>);

/// What is written is what would be read; of a list of counts the first five, and zeros where it is shorter.
pub fn written(case: &mut Stored) {
    let six = ticket(5, &[0, 0, 0, 2, 2, 4], &[]);
    let all = [(1, 1, 4); 6];
    let some = [(0, 1, 4), (1, 1, 4), (0, 1, 4), (1, 1, 4), (1, 1, 4), (0, 1, 4)];
    let none = [(0, 1, 4); 6];
    let mut given: Vec<Given> = vec![
        (all, vec![3, 0, 2, 0, 1], Some([3, 0, 2, 0, 1])),
        (all, vec![3, 7, 258, 65_535, 1], Some([3, 7, 258, 65_535, 1])),
        (all, vec![65_535; 5], Some([65_535; 5])),
        (all, vec![2, 0, 2, 0, 1], None),
        (all, vec![2, 3, 3, 3, 3], None),
        (all, vec![3, 0, 1, 0, 1], None),
        (all, vec![6, 6, 1, 6, 6], None),
        (all, vec![3, 0, 2, 0, 0], None),
        (all, vec![6, 6, 6, 6, 0], None),
        (all, vec![1, 0, 2, 0, 3], None),
        (all, vec![3, 0, 2, 0, 1, 9, 65_536], Some([3, 0, 2, 0, 1])),
        (all, vec![3, 0, 2, 0], None),
        (all, vec![], None),
        (some, vec![1, 0, 2, 0, 0], Some([1, 0, 2, 0, 0])),
        (some, vec![1, 0, 2], Some([1, 0, 2, 0, 0])),
        (some, vec![1, 0], None),
        (some, vec![2, 0, 1, 0, 0], None),
        (none, vec![], Some([0; 5])),
        (none, vec![0, 0, 0, 0, 1], Some([0, 0, 0, 0, 1])),
        (none, vec![9], Some([9, 0, 0, 0, 0])),
    ];
    for device in 0..5 {
        for count in [65_536, 65_537, 65_539, 131_072, 1 << 24, u32::MAX] {
            let mut counts = vec![3, 0, 2, 0, 1];
            counts[device] = count;
            given.push((all, counts, None));
        }
    }
    for (windows, counts, expected) in given {
        let Some(values) = handed(&whole(&six, &windows, [65_535; 5]), &counts) else {
            return case.says(false, "a record of six events is read");
        };
        let written = case.trial.write_record(&values, calls::RECORD);
        let expected = expected.map(|counts| whole(&six, &windows, counts));
        case.says(written == expected, "counts that are written");
    }
}
