//! Parts (02, change 8): windows worked out by hand, and with them whole outputs and the program's line of totals.

use super::{ticket, two_trains, unread, wrong_fields, Stored};
use crate::model::{calls, reading, text, writing, Prefer, Solver, Ticket, BOTH, DEVICES};

/// Event, open and close of each event of a part, for each device.
type Parts<'a> = [&'a [(u8, u32, u32)]; DEVICES];

/// The bytes of a part.
fn listed(events: &[(u8, u32, u32)]) -> Vec<u8> {
    let count = events.len() as u16;
    let fields =
        |&(event, open, close): &(u8, u32, u32)| [&[event][..], &open.to_le_bytes(), &close.to_le_bytes()].concat();
    [count.to_le_bytes().to_vec()].into_iter().chain(events.iter().map(fields)).flatten().collect()
}

impl Stored<'_> {
    /// The ticket's parts are these, and the program prints these totals below either plan.
    fn parted_to(&mut self, of: &Ticket, parts: Parts, totals: &str, what: &str) {
        let bytes = writing::ticket(of);
        let tiny = of.events() <= 3 && of.horizon <= 10 || of.events() <= 2 && of.horizon <= 20;
        let mut given = Vec::new();
        for (device, events) in (0..).zip(parts) {
            let part = self.both_solvers(tiny, |trial| trial.part(&bytes, device, calls::PART));
            self.says(part == Some(listed(events)), what);
            given.extend(part);
        }
        self.says(given.len() == DEVICES, what);
        if given.len() == DEVICES {
            self.trial.are_parts(of, &given);
        }
        self.totals(&bytes, totals, what);
    }

    /// The last line that is printed, by the model; the library was compared with it.
    fn totals(&mut self, bytes: &[u8], totals: &str, what: &str) {
        for prefer in BOTH {
            self.trial.printed(prefer, bytes);
            let printed = text::printed(&calls::plan(bytes, prefer, Solver::Flow));
            self.says(printed.ends_with(&format!("\n{totals}\n")), what);
        }
    }

    /// The number that is answered with an output of this length, by the model; the library was compared with it.
    fn unparted(&mut self, bytes: &[u8], device: u32, length: usize, number: u32, what: &str) {
        self.trial.part(bytes, device, length);
        let part = || calls::part(bytes, device, Solver::Flow);
        self.says(calls::hand_out_part(part, &mut vec![0; length]).0 == number, what);
    }
}

/// P1: the camera alone has its earliest to its latest time, the lamps alone theirs.
pub fn example_1(case: &mut Stored) {
    let trains = writing::ticket(&two_trains());
    let parts: [&[u8]; DEVICES] =
        [b"\x01\0\x01\x05\0\0\0\x0f\0\0\0", b"\0\0", b"\x01\0\x02\x08\0\0\0\x13\0\0\0", b"\0\0", b"\0\0"];
    for (device, wanted) in (0..).zip(parts) {
        let part = case.trial.part(&trains, device, calls::PART);
        case.says(part.as_deref() == Some(wanted), "the bytes of P1's parts");
    }
    case.parted_to(&two_trains(), [&[(1, 5, 15)], &[], &[(2, 8, 19)], &[], &[]], "30 0 11 0 0", "P1");
    let texts = ["plan 2 18\n1 0 5 11\n2 2 9 9\n30 0 11 0 0\n", "plan 2 18\n1 0 9 15\n2 2 13 13\n30 0 11 0 0\n"];
    for (prefer, wanted) in BOTH.into_iter().zip(texts) {
        let printed = text::printed(&calls::plan(&trains, prefer, Solver::Flow));
        case.says(printed == wanted, "what is printed for P1");
    }
    let none = writing::ticket(&ticket(10, &[3, 3], &[(1, 2, -1), (2, 1, 0)]));
    case.trial.printed(Prefer::Earliest, &none);
    let printed = text::printed(&calls::plan(&none, Prefer::Earliest, Solver::Flow));
    case.says(printed == "refused 9\n", "what is printed for P6 with bound 0");
}

/// P4, P6, P7, P8 and P10: no event, or the stage's alone, so that its part is the plan.
pub fn examples_4_to_10(case: &mut Stored) {
    let mut stage = |of: &Ticket, events: &[(u8, u32, u32)], totals: &str, what: &str| {
        case.parted_to(of, [&[], &[], &[], events, &[]], totals, what);
    };
    stage(&ticket(5, &[3; 3], &[(1, 2, 0), (2, 3, 0)]), &[(1, 0, 5), (2, 0, 0), (3, 0, 0)], "0 0 0 5 0", "P4");
    stage(&ticket(10, &[3; 2], &[(1, 2, -1), (2, 1, 1)]), &[(1, 1, 1), (2, 0, 0)], "0 0 0 0 0", "P6");
    stage(&ticket(10, &[3], &[(1, 0, -10)]), &[(1, 10, 10)], "0 0 0 0 0", "P7");
    stage(&ticket(0, &[], &[]), &[], "0 0 0 0 0", "P8");
    stage(&ticket(5, &[3; 2], &[]), &[(1, 0, 5), (2, 0, 5)], "0 0 0 10 0", "P10");
}

/// Rules that bind a device's events by way of another's: 2 comes at least 2 ticks after 1, and 3 at least 3 after 2, so 3 at
/// least 5 after 1. No rule joins 1 and 3.
pub fn by_way_of_others(case: &mut Stored) {
    let chain = |owners: [u8; 3]| ticket(10, &owners, &[(2, 1, -2), (3, 2, -3)]);
    // Whatever event 1's window ends later, event 3's opens later: 5 ticks in all. Event 2 alone lies between 2 and 7. The
    // plan has 0..0, 2..2 and 5..10, a total of 15.
    let ends: &[(u8, u32, u32)] = &[(1, 0, 0), (3, 5, 10)];
    case.parted_to(
        &chain([0, 3, 0]),
        [ends, &[], &[], &[(2, 2, 7)], &[]],
        "15 0 0 5 0",
        "the camera's around the stage's",
    );
    case.parted_to(
        &chain([1, 0, 1]),
        [&[(2, 2, 7)], ends, &[], &[], &[]],
        "15 5 0 0 0",
        "the wheel's around the camera's",
    );
    // The database has its earliest times: a tick counts nothing.
    let ticks: &[(u8, u32, u32)] = &[(1, 0, 0), (3, 5, 5)];
    case.parted_to(
        &chain([4, 2, 4]),
        [&[], &[], &[(2, 2, 7)], &[], ticks],
        "0 0 5 0 0",
        "the database's around the lamps'",
    );
    case.parted_to(
        &chain([2, 4, 2]),
        [&[], &[], ends, &[], &[(2, 2, 2)]],
        "0 0 5 0 0",
        "the lamps' around the database's",
    );
    // Event 2 exactly 3 after 1 and exactly 3 before 3: the three are one.
    let tied = [(1, 2, 3), (2, 1, -3), (2, 3, 3), (3, 2, -3)];
    let parts: Parts = [&[(1, 0, 0), (3, 6, 6)], &[(2, 3, 7)], &[], &[], &[]];
    case.parted_to(&ticket(10, &[0, 1, 0], &tied), parts, "0 4 0 0 0", "events at fixed distances");
    // 1 and 2 within 4 of each other, each exactly at the stage's event, 3: they are at the same tick.
    let same = [(1, 3, 0), (3, 1, 0), (2, 3, 0), (3, 2, 0), (1, 2, 4), (2, 1, 4)];
    let parts: Parts = [&[(1, 0, 0), (2, 0, 0)], &[], &[], &[(3, 0, 10)], &[]];
    case.parted_to(&ticket(10, &[0, 0, 3], &same), parts, "0 0 0 10 0", "events at the same tick");
}

/// No rule joins events of two devices: the parts are the plan, and the totals sum to its total.
pub fn separate(case: &mut Stored) {
    let all = ticket(9, &[0, 1, 2, 3, 4], &[]);
    let parts: Parts = [&[(1, 0, 9)], &[(2, 0, 9)], &[(3, 0, 9)], &[(4, 0, 9)], &[(5, 0, 0)]];
    case.parted_to(&all, parts, "27 9 9 9 0", "one event of each device");
    let plan = case.plan(&all);
    case.total(&plan, 54, "the total of one event of each device");
    // P4 of the stage, its events turned round; P6 of the wheel with an event of the camera between; the camera 2 to 6.
    let rules = [(6, 4, 0), (4, 1, 0), (2, 5, -1), (5, 2, 1), (0, 3, 6), (3, 0, -2)];
    let mixed = ticket(9, &[3, 1, 0, 3, 1, 3], &rules);
    let parts: Parts = [&[(3, 2, 6)], &[(2, 1, 1), (5, 0, 0)], &[], &[(1, 0, 0), (4, 0, 0), (6, 0, 9)], &[]];
    case.parted_to(&mixed, parts, "12 0 0 9 0", "P4 and P6 beside each other");
    let plan = case.plan(&mixed);
    case.windows(&plan, &[(0, 0), (1, 1), (2, 6), (0, 0), (0, 0), (0, 9)], "the plan of P4 and P6 beside each other");
    case.total(&plan, 21, "the total of P4 and P6 beside each other");
}

/// Events of one device: its part is the plan, the others are empty.
pub fn one_device(case: &mut Stored) {
    let sequence: &[(u8, u32, u32)] = &[(1, 0, 5), (2, 0, 0), (3, 0, 0)];
    let ticks: &[(u8, u32, u32)] = &[(1, 0, 0), (2, 0, 0), (3, 0, 0)];
    let totals = ["15 0 0 0 0", "0 5 0 0 0", "0 0 5 0 0", "0 0 0 5 0", "0 0 0 0 0"];
    for (device, totals) in totals.into_iter().enumerate() {
        let mut parts: Parts = [&[]; DEVICES];
        parts[device] = if device == 4 { ticks } else { sequence };
        let of = ticket(5, &[device as u8; 3], &[(1, 2, 0), (2, 3, 0)]);
        case.parted_to(&of, parts, totals, "P4 of one device");
    }
}

/// The session of the repository. Camera: exposure 1 comes at 50 or later, exposure 2 60 to 250 after it, at 790 at the
/// latest. Wheel: filter 2 at least 60 after filter 1, which is in place at 15 or later; at 785 at the latest. Lamps: off 170 to 600 after
/// they are on. The stage is at the field from 30 to 200. The images are stored at 90 and 170 at the earliest.
pub fn session(case: &mut Stored) {
    let bytes = include_bytes!("../../../examples/tickets/session.ticket");
    let Ok(session) = reading::ticket(bytes) else { return case.says(false, "the session's ticket is read") };
    let parts: Parts = [
        &[(4, 50, 50), (7, 110, 300)],
        &[(2, 15, 45), (6, 105, 785)],
        &[(3, 0, 0), (9, 170, 600)],
        &[(1, 30, 200)],
        &[(5, 90, 90), (8, 170, 170)],
    ];
    case.parted_to(&session, parts, "570 710 430 170 0", "the session's parts");
}

/// 40 events: 362 bytes of one device's, event 40 alone, every fifth one, and all 1,640 distances of a chain that leaves no
/// room and of one that does.
pub fn forty(case: &mut Stored) {
    let wide: Vec<(u8, u32, u32)> = (1..=40).map(|event| (event, 0, 1_000_000)).collect();
    let parts: Parts = [&wide, &[], &[], &[], &[]];
    case.parted_to(&ticket(1_000_000, &[0; 40], &[]), parts, "120000000 0 0 0 0", "the largest total");
    let rules = [(0, 1, 1_000_000); 256];
    case.parted_to(&ticket(1_000_000, &[0; 40], &rules), parts, "120000000 0 0 0 0", "the longest ticket");
    let mut owners = [1; 40];
    owners[39] = 2;
    let parts: Parts = [&[], &wide[..39], &[(40, 0, 1_000_000)], &[], &[]];
    case.parted_to(&ticket(1_000_000, &owners, &[]), parts, "0 39000000 1000000 0 0", "event 40 alone");
    // Event k at tick k.
    let fixed: Vec<(u8, u8, i32)> = (0..40).flat_map(|point| [(point, point + 1, 1), (point + 1, point, -1)]).collect();
    let every_fifth: Vec<u8> = (0..40).map(|place| place % 5).collect();
    let at = |device: u8| -> Vec<(u8, u32, u32)> {
        (1..=40).filter(|event| (event - 1) % 5 == device).map(|event| (event, event as u32, event as u32)).collect()
    };
    let ticks: Vec<Vec<(u8, u32, u32)>> = (0..5).map(at).collect();
    let parts: Parts = std::array::from_fn(|device| &ticks[device][..]);
    case.parted_to(&ticket(100, &every_fifth, &fixed), parts, "0 0 0 0 0", "events at fixed times");
    // Each event at the one before or later: the last one has the whole session. Of the device of event 40, the database, the
    // earliest times are 0; of the others the last event has it.
    let chain: Vec<(u8, u8, i32)> = (1..40).map(|event| (event + 1, event, 0)).collect();
    let last = |device: u8| -> Vec<(u8, u32, u32)> {
        let events = (1..=40).filter(|event| (event - 1) % 5 == device);
        events.map(|event| (event, 0, if event == 36 + device && device < 4 { 100 } else { 0 })).collect()
    };
    let ends: Vec<Vec<(u8, u32, u32)>> = (0..5).map(last).collect();
    let parts: Parts = std::array::from_fn(|device| &ends[device][..]);
    case.parted_to(&ticket(100, &every_fifth, &chain), parts, "300 100 100 100 0", "a chain of all devices");
    let mut alone: Vec<(u8, u32, u32)> = (1..=40).map(|event| (event, 0, 0)).collect();
    alone[39].2 = 100;
    let parts: Parts = [&[], &[], &alone, &[], &[]];
    case.parted_to(&ticket(100, &[2; 40], &chain), parts, "0 0 100 0 0", "a chain of one device");
}

/// 10, then 4 for the device, then 1 to 8, then 9, whether the device has events or not.
pub fn refusals(case: &mut Stored) {
    let impossible = writing::ticket(&ticket(10, &[3, 3], &[(1, 2, -1), (2, 1, 0)]));
    let possible = writing::ticket(&two_trains());
    let above = [5, 6, 7, 255, 256, 257, 65_536, 0x0100_0000, 0x7fff_ffff, 0x8000_0000, u32::MAX];
    let mut bytes = unread();
    bytes.extend([(impossible, 9), (possible, 0)]);
    for (bytes, number) in &bytes {
        for device in [0, 2, 3, 4, 5, 256, u32::MAX] {
            for length in [0, 1, 2, 11, 361] {
                case.unparted(bytes, device, length, 10, "10 before all others");
            }
        }
        for device in above {
            for length in [362, 363, 4_000] {
                case.unparted(bytes, device, length, 4, "a device above 4");
            }
        }
        for device in 0..5 {
            for length in [362, 363, 4_000] {
                case.unparted(bytes, device, length, *number, "as planning answers");
            }
        }
    }
    for (bytes, number) in wrong_fields() {
        case.unparted(&bytes, 0, calls::PART, number, "each field in its order");
        case.unparted(&bytes, 5, calls::PART, 4, "the device before each field");
    }
    let late = writing::ticket(&ticket(10, &[], &[]));
    case.unparted(&late, 4, calls::PART, 0, "no event");
    case.unparted(&late, 5, calls::PART, 4, "no event, and no device");
}
