//! Tables worked from the last event back (02, change 3): whole tables after 0, 1, .. stops, worked out by hand.

use super::{ticket, two_trains, unread, with_rule, wrong_fields, Stored};
use crate::model::{calls, writing, Solver, Ticket};

/// No path, as the header says it.
const NO_PATH: i32 = 2_147_483_647;

impl Stored<'_> {
    /// The rows of the ticket's table after this many stops.
    fn table_after(&mut self, ticket: &Ticket, stops: u32) -> Vec<Vec<i32>> {
        let (bytes, size) = (writing::ticket(ticket), ticket.events() + 1);
        let tiny = ticket.events() <= 3 && ticket.horizon <= 20;
        let out = self.both_solvers(tiny, |trial| trial.table_after(&bytes, stops, calls::TABLE));
        out.chunks(size).take(size).map(|row| row.to_vec()).collect()
    }

    /// The ticket's tables after 0, 1, .., n + 1 stops; the last is also the one after more stops, and the table.
    fn worked<const POINTS: usize>(&mut self, ticket: &Ticket, tables: &[[[i32; POINTS]; POINTS]], what: &str) {
        self.says(tables.len() == POINTS + 1, what);
        for (stops, expected) in (0..).zip(tables) {
            let table = self.table_after(ticket, stops);
            self.says(table == expected, what);
        }
        let all = POINTS as u32;
        for more in [all + 1, all + 2, 41, 42, 255, 256, 257, 65_536, 1 << 31, u32::MAX] {
            let table = self.table_after(ticket, more);
            self.says(table == tables[POINTS], "after more stops than there are");
        }
        let table = self.table(ticket);
        self.says(table == tables[POINTS], "the finished table");
    }

    /// The number that is answered after any number of stops, by the model; the library was compared with it.
    fn unworked(&mut self, bytes: &[u8], length: usize, number: u32, what: &str) {
        for stops in (0..=42).chain([255, 256, u32::MAX]) {
            self.trial.table_after(bytes, stops, length);
            let given = calls::table_after(bytes, stops, &mut vec![0; length], Solver::Flow);
            self.says(given == number, what);
        }
    }
}

/// Event 2 first: nothing is shorter by it. Then event 1: 15 and 4 are less than 20.
pub fn example_1(case: &mut Stored) {
    let first = [[0, 15, 20], [-5, 0, 4], [-8, 2, 0]];
    let last = [[0, 15, 19], [-5, 0, 4], [-8, 2, 0]];
    case.worked(&two_trains(), &[first, first, last, last], "P1 after each stop");
}

/// 1 to 3 to 2 to 1: each event, taken as a stop, joins two of the rules, and the sums are above the horizon until
/// session start is taken.
pub fn each_stop(case: &mut Stored) {
    let ring = ticket(8, &[0; 3], &[(1, 3, 4), (3, 2, 5), (2, 1, 6)]);
    let tables = [
        [[0, 8, 8, 8], [0, 0, NO_PATH, 4], [0, 6, 0, NO_PATH], [0, NO_PATH, 5, 0]],
        [[0, 8, 8, 8], [0, 0, 9, 4], [0, 6, 0, NO_PATH], [0, NO_PATH, 5, 0]],
        [[0, 8, 8, 8], [0, 0, 9, 4], [0, 6, 0, NO_PATH], [0, 11, 5, 0]],
        [[0, 8, 8, 8], [0, 0, 9, 4], [0, 6, 0, 10], [0, 11, 5, 0]],
        [[0, 8, 8, 8], [0, 0, 8, 4], [0, 6, 0, 8], [0, 8, 5, 0]],
    ];
    case.worked(&ring, &tables, "a ring of three events");
}

/// Says: the database entries, last on a ticket, enter first. An image is stored at most 30 ticks after it is taken,
/// the lamps go out at least 2 ticks after it is taken and 5 before it is stored: hence the 25 from the image to the
/// lamps, by way of the database, after the first stop.
pub fn database_last(case: &mut Stored) {
    let image = ticket(100, &[0, 2, 4], &[(1, 3, 30), (3, 2, -5), (2, 1, -2)]);
    let finished = [[0, 93, 95, 100], [0, 0, 25, 30], [-2, -2, 0, 28], [-7, -7, -5, 0]];
    let tables = [
        [[0, 100, 100, 100], [0, 0, NO_PATH, 30], [0, -2, 0, NO_PATH], [0, NO_PATH, -5, 0]],
        [[0, 100, 95, 100], [0, 0, 25, 30], [0, -2, 0, NO_PATH], [0, NO_PATH, -5, 0]],
        [[0, 93, 95, 100], [0, 0, 25, 30], [0, -2, 0, NO_PATH], [-5, -7, -5, 0]],
        finished,
        finished,
    ];
    case.worked(&image, &tables, "an image, the lamps and the database");
}

/// From event 1 to event 2 there is no path but by session start, the last stop.
pub fn no_path(case: &mut Stored) {
    let first = [[0, 5, 5], [0, 0, NO_PATH], [0, NO_PATH, 0]];
    let last = [[0, 5, 5], [0, 0, 5], [0, 5, 0]];
    case.worked(&ticket(5, &[3, 3], &[]), &[first, first, first, last], "P10 after each stop");
    let direct = [[0, 20, 10], [0, 0, NO_PATH], [0, 3, 0]];
    let by_2 = [[0, 13, 10], [0, 0, NO_PATH], [0, 3, 0]];
    let by_start = [[0, 13, 10], [0, 0, 10], [0, 3, 0]];
    let tables = [direct, by_2, by_2, by_start];
    case.worked(&ticket(20, &[0, 0], &[(0, 2, 10), (2, 1, 3)]), &tables, "a path by event 2, and none to it");
}

/// Before any stop an entry is the tightest of the rules between its points, the unwritten ones among them.
pub fn single_rules(case: &mut Stored) {
    case.worked(&ticket(0, &[], &[]), &[[[0]], [[0]]], "P8");
    case.worked(&ticket(7, &[], &[]), &[[[0]], [[0]]], "no event");
    case.worked(&ticket(5, &[3], &[]), &[[[0, 5], [0, 0]]; 3], "no rule");
    case.worked(&ticket(5, &[3], &[(1, 0, 5), (0, 1, 9)]), &[[[0, 5], [0, 0]]; 3], "rules that are not tight");
    let several = [(0, 1, 4), (1, 0, -1), (0, 1, 3), (1, 0, 0), (0, 1, 9)];
    case.worked(&ticket(5, &[3], &several), &[[[0, 3], [-1, 0]]; 3], "several rules");
    case.worked(&ticket(10, &[3], &[(1, 0, -10)]), &[[[0, 10], [-10, 0]]; 3], "P7");
}

/// From each event to the next at most 1,000,000: sums rise to 39,000,000, and fall to the horizon with the last stop.
pub fn far_above_the_horizon(case: &mut Stored) {
    const MOST: i32 = 1_000_000;
    let rules: Vec<(u8, u8, i32)> = (1..40).map(|event| (event, event + 1, MOST)).collect();
    let chain = ticket(MOST as u32, &[4; 40], &rules);
    for stops in 0..=42 {
        // Events from this one on are stops.
        let first_stop = 41 - stops;
        let entry = |i: i32, j: i32| match (i, j) {
            _ if i == j || j == 0 => 0,
            (0, _) => MOST,
            _ if stops > 40 || i + 1 == j => MOST,
            _ if i < j && first_stop <= i + 1 => (j - i) * MOST,
            _ => NO_PATH,
        };
        let expected: Vec<Vec<i32>> = (0..=40).map(|i| (0..=40).map(|j| entry(i, j)).collect()).collect();
        let table = case.table_after(&chain, stops as u32);
        case.says(table == expected, "a chain through all events");
        let from_1_to_40 = match stops {
            0..=38 => NO_PATH,
            39..=40 => 39_000_000,
            _ => 1_000_000,
        };
        case.says(table[1][40] == from_1_to_40, "from the first event to the last");
    }
}

/// 9 after any number of stops, also where no ring is closed by those taken.
pub fn impossible(case: &mut Stored) {
    let mut answers = |of: Ticket, number, what| case.unworked(&writing::ticket(&of), calls::TABLE, number, what);
    answers(ticket(10, &[3, 3], &[(1, 2, -1), (2, 1, 0)]), 9, "P6 with bound 0");
    answers(ticket(10, &[3], &[(1, 0, -11)]), 9, "P7 with bound -11");
    answers(ticket(5, &[3], &[(0, 1, -1)]), 9, "before the session");
    let all = |last: i32| {
        let mut rules: Vec<(u8, u8, i32)> = (0..40).map(|point| (point, point + 1, 1)).collect();
        rules.push((40, 0, last));
        ticket(100, &[0; 40], &rules)
    };
    answers(all(-41), 9, "a ring of sum -1 through all points");
    answers(all(-40), 0, "a ring of sum 0 through all points");
}

/// 10, then 1 to 8 in the order of the bytes, then 9. The output is looked at with each.
pub fn refusals(case: &mut Stored) {
    let possible = writing::ticket(&two_trains());
    let impossible = with_rule((0, 1, -1));
    for length in [0, 1, 9, 1_680] {
        for bytes in [&possible, &impossible] {
            case.unworked(bytes, length, 10, "10 before a table and before 9");
        }
    }
    for length in [1_681, 1_682, 4_000] {
        case.unworked(&possible, length, 0, "an output that is long enough");
        case.unworked(&impossible, length, 9, "a ticket with no schedule");
    }
    for (bytes, number) in unread() {
        case.unworked(&bytes, calls::TABLE - 1, 10, "10 before 1 to 8");
        case.unworked(&bytes, calls::TABLE, number, "a ticket that is not read");
    }
    for (bytes, number) in wrong_fields() {
        case.unworked(&bytes, calls::TABLE, number, "each field in its order");
    }
    let none = ticket(5, &[0; 40], &[(0, 1, -1); 256]);
    case.unworked(&writing::ticket(&none), calls::TABLE, 9, "9 after 1 to 8");
}
