//! Mending (02, change 6): the numbers dropped, worked out by hand, and with them the whole mended ticket.

use super::{calendar, ticket, two_trains, unread, wrong_fields, Stored};
use crate::model::{calls, reading, writing, Rule, Solver, Ticket};
use crate::trial::{Outputs, LEAST};

/// The bytes of a list of dropped rules.
fn listed(numbers: &[u16]) -> Vec<u8> {
    let count = numbers.len() as u16;
    [count].iter().chain(numbers).flat_map(|number| [(number % 256) as u8, (number / 256) as u8]).collect()
}

/// The rules of the ticket whose numbers are not among these.
fn others(of: &Ticket, dropped: &[u16]) -> Vec<Rule> {
    (1..).zip(&of.rules).filter(|(number, _)| !dropped.contains(number)).map(|(_, &rule)| rule).collect()
}

impl Stored<'_> {
    /// These bytes are mended to these, with this list.
    fn mended_to(&mut self, bytes: &[u8], mended: &[u8], list: &[u8], what: &str) {
        let tiny = reading::ticket(bytes).is_ok_and(|t| t.events() <= 3 && t.horizon <= 10 && t.rules.len() <= 12);
        let given = self.both_solvers(tiny, |trial| trial.mend(bytes, LEAST));
        if let Some((mended, list)) = &given {
            self.trial.is_mended(bytes, mended, list);
        }
        self.says(given == Some((mended.to_vec(), list.to_vec())), what);
    }

    /// Mending drops the rules of these numbers.
    fn drops(&mut self, of: &Ticket, numbers: &[u16], what: &str) {
        let mended = Ticket { rules: others(of, numbers), ..of.clone() };
        self.mended_to(&writing::ticket(of), &writing::ticket(&mended), &listed(numbers), what);
    }

    /// The number that is answered with outputs of these lengths, by the model; the library was compared with it.
    fn unmended(&mut self, bytes: &[u8], out: usize, dropped: usize, number: u32, what: &str) {
        self.trial.mend(bytes, Outputs { out, dropped });
        let mending = || calls::mend(bytes, Solver::Flow);
        let given = calls::hand_out(mending, &mut vec![0; out], &mut vec![0; dropped]);
        self.says(given.0 == number, what);
    }
}

/// P6 with "2 to 1: 0": rule 1 is kept. P7 with "1 to 0: -11": no rule is left.
pub fn examples(case: &mut Stored) {
    let two = b"\x0a\0\0\0\x02\0\x03\x03\x02\0\x01\x02\xff\xff\xff\xff\x02\x01\0\0\0\0";
    let one = b"\x0a\0\0\0\x02\0\x03\x03\x01\0\x01\x02\xff\xff\xff\xff";
    case.mended_to(two, one, b"\x01\0\x02\0", "P6 with bound 0");
    let late = b"\x0a\0\0\0\x01\0\x03\x01\0\x01\0\xf5\xff\xff\xff";
    case.mended_to(late, b"\x0a\0\0\0\x01\0\x03\0\0", b"\x01\0\x01\0", "P7 with bound -11");
}

/// Tickets with a schedule, byte for byte.
pub fn unchanged(case: &mut Stored) {
    let trains = b"\x14\0\0\0\x02\0\0\x02\x06\0\0\x01\x0f\0\0\0\x01\0\xfb\xff\xff\xff\
        \0\x02\x14\0\0\0\x02\0\xf8\xff\xff\xff\x01\x02\x04\0\0\0\x02\x01\x02\0\0\0";
    case.mended_to(trains, trains, b"\0\0", "P1");
    case.drops(&ticket(5, &[3, 3, 3], &[(1, 2, 0), (2, 3, 0)]), &[], "P4");
    case.drops(&ticket(10, &[3, 3], &[(1, 2, -1), (2, 1, 1)]), &[], "P6, a ring of sum 0");
    case.drops(&ticket(10, &[3], &[(1, 0, -10)]), &[], "P7");
    case.drops(&ticket(0, &[], &[]), &[], "P8");
    case.drops(&ticket(5, &[3, 3], &[]), &[], "P10");
    case.drops(&ticket(7, &[4, 0], &[(1, 2, 7), (1, 2, 7), (2, 1, 1_000_000)]), &[], "rules that say nothing");
    case.drops(&calendar(), &[], "the shared calendar");
    let session = include_bytes!("../../../examples/tickets/session.ticket");
    case.mended_to(session, session, b"\0\0", "the session");
}

/// Of a ring the last rule in ticket order is dropped, whichever it is, and of several rings with a rule in common either
/// that one or all others.
pub fn rings(case: &mut Stored) {
    let mut drops = |rules: &[(u8, u8, i32)], numbers: &[u16], what: &str| {
        case.drops(&ticket(9, &[0, 1, 2], rules), numbers, what);
    };
    let (a, b, c) = ((1, 2, 0), (2, 3, 3), (3, 1, -4));
    for rules in [[a, b, c], [a, c, b], [b, a, c], [b, c, a], [c, a, b], [c, b, a]] {
        drops(&rules, &[3], "the last of three rules");
    }
    drops(&[(1, 2, 1), b, c], &[], "a ring of sum 0");
    drops(&[(1, 2, -1), (2, 1, 0), (2, 1, 0)], &[2, 3], "a common rule that comes first");
    drops(&[(2, 1, 0), (2, 1, 0), (1, 2, -1)], &[3], "a common rule that comes last");
    drops(&[(2, 1, 0), (1, 2, -1), (2, 1, 0)], &[2], "a common rule that comes between");
    // 1 to 2 to 3 to 1 sums to -1, 0 and 1 with rules 3, 4 and 5; 2 to 3 to 2 to -1 and 0 with rules 6 and 7.
    let several = [(1, 2, 0), (2, 3, 3), (3, 1, -4), (3, 1, -3), (3, 1, -2), (3, 2, -4), (3, 2, -3)];
    drops(&several, &[3, 6], "rings of sum -1 beside those of sum 0 and 1");
    // Rule 3 conflicts with rule 2 alone.
    drops(&[(1, 2, -1), (2, 1, 0), (1, 2, -3), (2, 3, 0), (3, 1, 3)], &[2], "a rule that only a dropped one rules out");
}

/// What is dropped does not bind later rules, and a looser rule in its place is kept.
pub fn later(case: &mut Stored) {
    let rules = [(1, 2, -1), (2, 1, 0), (2, 1, 1), (1, 2, -2), (2, 0, -9), (0, 1, 9), (0, 1, 10), (1, 0, -10)];
    case.drops(&ticket(10, &[3, 3], &rules), &[2, 4, 6], "kept and dropped by turns");
    case.drops(&ticket(10, &[2], &[(0, 1, -1), (1, 0, -3), (0, 1, 2), (0, 1, 3)]), &[1, 3], "the first rule dropped");
    let limits = [(0, 1, 3), (1, 0, -4), (0, 1, 2), (1, 0, -3), (0, 1, 0), (1, 0, 0), (1, 0, -1)];
    case.drops(&ticket(5, &[4], &limits), &[2, 4, 7], "each rule possible alone");
    let apart = [(1, 2, -1), (3, 4, -2), (2, 1, 0), (4, 3, 1), (2, 1, 1), (4, 3, 2), (1, 3, 0), (3, 1, -1)];
    case.drops(&ticket(9, &[0; 4], &apart), &[3, 4, 8], "two pairs of events");
    let first = ticket(4, &[0, 0], &[(1, 0, -5), (0, 1, -1), (1, 2, -5), (2, 1, -5), (0, 2, 4), (2, 0, -4)]);
    case.drops(&first, &[1, 2, 3, 4], "the rules after those that are dropped");
}

/// Rings by way of 0 and of H, which no rule says.
pub fn limits(case: &mut Stored) {
    let mut drops = |horizon: u32, rules: &[(u8, u8, i32)], numbers: &[u16], what: &str| {
        case.drops(&ticket(horizon, &[1, 2, 3], rules), numbers, what);
    };
    drops(10, &[(0, 1, -1), (0, 1, 0)], &[1], "before the session");
    drops(10, &[(1, 0, -11), (1, 0, -10)], &[1], "after the session");
    drops(10, &[(1, 2, -11), (1, 2, -10), (2, 1, 9), (2, 1, 10)], &[1, 3], "farther apart than the session is long");
    let chain = [(1, 2, -5), (2, 3, -5), (3, 0, -1), (0, 1, 9), (0, 1, 10), (1, 3, -11), (1, 3, -10), (2, 0, -6)];
    drops(10, &chain, &[3, 4, 6, 8], "as long as the session");
    let over = [(1, 2, -5), (2, 3, -6), (2, 3, -5), (3, 0, 0), (3, 2, 5), (0, 2, 4)];
    drops(10, &over, &[2, 6], "a tick longer than the session");
    drops(0, &[(1, 2, 0), (2, 1, 0), (1, 2, -1), (1, 0, 0), (0, 3, 0), (3, 0, -1)], &[3, 6], "a session of one tick");
    let far = [(1, 2, -1_000_000), (2, 1, 999_999), (2, 1, 1_000_000), (2, 0, -1), (1, 3, -1_000_000), (2, 3, -1)];
    drops(1_000_000, &far, &[2, 4, 6], "the longest session");
    drops(999_999, &[(1, 2, -1_000_000), (1, 0, -1_000_000), (1, 2, -999_999)], &[1, 2], "a tick less");
}

/// Tickets of 256 rules: all dropped, all kept, every other one, the last alone, all but the last.
pub fn many(case: &mut Stored) {
    let owners = [4; 40];
    let all: Vec<u16> = (1..=256).collect();
    let hopeless = ticket(999_999, &owners, &[(40, 39, -1_000_000); 256]);
    case.drops(&hopeless, &all, "256 rules that cannot be kept");
    let empty = [&b"\x3f\x42\x0f\0\x28\0"[..], &owners, b"\0\0"].concat();
    let list: Vec<u8> = [0, 1].into_iter().chain((1..=255).flat_map(|number| [number, 0])).chain([0, 1]).collect();
    case.mended_to(&writing::ticket(&hopeless), &empty, &list, "a list of 514 bytes");
    case.drops(&ticket(5, &owners, &[(0, 40, 5); 256]), &[], "a ticket of 1,584 bytes");
    let turns = |first: (u8, u8, i32), second: (u8, u8, i32)| ticket(5, &owners, &[[first, second]; 128].concat());
    let even: Vec<u16> = (1..=128).map(|pair| 2 * pair).collect();
    case.drops(&turns((1, 2, -1), (2, 1, 0)), &even, "every second rule");
    let odd: Vec<u16> = even.iter().map(|number| number - 1).collect();
    case.drops(&turns((1, 2, -6), (2, 1, 0)), &odd, "every second rule from the first on");
    let mut rules = vec![(0, 1, 5); 255];
    rules.push((40, 0, -6));
    case.drops(&ticket(5, &owners, &rules), &[256], "the last of 256 rules");
    rules = vec![(40, 0, -6); 255];
    rules.push((0, 1, 5));
    case.drops(&ticket(5, &owners, &rules), &all[..255], "all but the last of 256 rules");
}

/// One ring through all 41 points, in three orders, and then rules that close it again.
pub fn all_points(case: &mut Stored) {
    let ring = |sum: i32| -> Vec<(u8, u8, i32)> {
        let mut rules: Vec<(u8, u8, i32)> = (0..40).map(|point| (point, point + 1, 1)).collect();
        rules.push((40, 0, sum - 40));
        rules
    };
    let of = |rules: &[(u8, u8, i32)]| ticket(100, &[0; 40], rules);
    for (sum, numbers) in [(-1, &[41][..]), (0, &[]), (1, &[])] {
        let rules = ring(sum);
        let mixed: Vec<(u8, u8, i32)> = (1..=41).map(|number| rules[number * 7 % 41]).collect();
        let turned: Vec<(u8, u8, i32)> = rules.iter().rev().copied().collect();
        for order in [rules, mixed, turned] {
            case.drops(&of(&order), numbers, "a ring through all points");
        }
    }
    let mut rules = ring(-1);
    rules.extend([(40, 0, -40), (40, 0, -41), (0, 40, 39), (39, 1, -38), (39, 1, -39), (20, 0, -20), (0, 20, 19)]);
    case.drops(&of(&rules), &[41, 43, 44, 46, 48], "after a ring through all points");
}

/// 10, then 1 to 8, and never 9. Both outputs are looked at with each.
pub fn refusals(case: &mut Stored) {
    let impossible = writing::ticket(&ticket(10, &[3, 3], &[(1, 2, -1), (2, 1, 0)]));
    let possible = writing::ticket(&two_trains());
    let short = [(0, 0), (0, 514), (1_584, 0), (16, 514), (1_583, 514), (1_584, 4), (1_584, 512), (1_584, 513)];
    let shorter = [(1_583, 513), (514, 1_584), (1_583, 4_000), (4_000, 513)];
    for (out, dropped) in short.into_iter().chain(shorter) {
        for bytes in [&impossible, &possible] {
            case.unmended(bytes, out, dropped, 10, "too short an output");
        }
        for (bytes, _) in unread() {
            case.unmended(&bytes, out, dropped, 10, "10 before 1 to 8");
        }
    }
    for (out, dropped) in [(1_584, 514), (1_585, 514), (1_584, 515), (4_000, 4_000)] {
        for bytes in [&impossible, &possible] {
            case.unmended(bytes, out, dropped, 0, "outputs that are long enough");
        }
        for (bytes, number) in unread() {
            case.unmended(&bytes, out, dropped, number, "a ticket that is not read");
        }
    }
    for (bytes, number) in wrong_fields() {
        case.unmended(&bytes, calls::TICKET, calls::DROPPED, number, "each field in its order");
    }
    let none = ticket(5, &[0; 40], &[(0, 1, -1); 256]);
    case.unmended(&writing::ticket(&none), calls::TICKET, calls::DROPPED, 0, "no schedule is no cause");
}
