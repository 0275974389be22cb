//! Reasons in words (02, change 2), each with its whole text.

use super::{ticket, two_trains, unread, Stored};
use crate::model::calls::{self, Asked};
use crate::model::{writing, Solver, Ticket};

const ROSTER: [&str; 5] = ["camera", "wheel", "lamps", "stage", "database"];

fn list(names: &[&str]) -> Vec<u8> {
    writing::names(&names.iter().map(|name| name.to_string()).collect::<Vec<_>>())
}

fn asked(ticket: &Ticket, labels: &[&str], roster: &[&str]) -> Asked {
    Asked { ticket: writing::ticket(ticket), labels: list(labels), roster: list(roster) }
}

impl Stored<'_> {
    /// The ticket's reason is this text, with these labels and our roster.
    fn reason(&mut self, ticket: &Ticket, labels: &[&str], text: &str, what: &str) {
        self.reason_by(ticket, labels, &ROSTER, text, what);
    }

    fn reason_by(&mut self, ticket: &Ticket, labels: &[&str], roster: &[&str], text: &str, what: &str) {
        let asked = asked(ticket, labels, roster);
        let tiny = ticket.events() <= 4 && ticket.horizon <= 10 && ticket.rules.len() <= 8;
        let given = self.both_solvers(tiny, |trial| trial.reason(&asked, calls::REASON));
        self.says(given.as_deref() == Some(text.as_bytes()), what);
    }

    /// The number that is answered with an output of this length, by the model; the library was compared with it.
    fn unreasoned(&mut self, asked: &Asked, length: usize, number: u32, what: &str) {
        self.trial.reason(asked, length);
        self.says(calls::reason(asked, &mut vec![0; length], Solver::Flow).0 == number, what);
    }
}

/// P6 with "2 to 1: 0": by rules 1 and 2.
fn two_opposed() -> Ticket {
    ticket(10, &[3, 3], &[(1, 2, -1), (2, 1, 0)])
}

pub fn examples(case: &mut Stored) {
    let text = "at later stage\nby 1 -1\nat sooner stage\nby 2 0\n";
    case.reason(&two_opposed(), &["later", "sooner"], text, "P6 with bound 0");
    // With one rule, "0 to 1: H" is number 3.
    let text = "at late stage\nby 1 -11\nat start\nby 3 10\n";
    case.reason(&ticket(10, &[3], &[(1, 0, -11)]), &["late"], text, "P7 with bound -11");
}

pub fn unwritten(case: &mut Stored) {
    let text = "at start\nby 1 -1\nat image camera\nby 2 0\n";
    case.reason(&ticket(5, &[0], &[(0, 1, -1)]), &["image"], text, "i to 0: 0");
    let text = "at turn wheel\nby 1 -11\nat save database\nby 4 0\nat start\nby 3 10\n";
    case.reason(&ticket(10, &[1, 4], &[(1, 2, -11)]), &["turn", "save"], text, "i to 0: 0, then 0 to i: H");
    let text = "at start\nby 1 10\nat late stage\nby 2 -11\n";
    case.reason(&ticket(10, &[3], &[(0, 1, 10), (1, 0, -11)]), &["late"], text, "0 to i: H, written too");
    // The last written rule and the last of all.
    let mut rules = vec![(0, 1, 5); 255];
    rules.push((40, 0, -1_000_000));
    let text = "at z lamps\nby 256 -1000000\nat start\nby 336 999999\n";
    let labels: Vec<&str> = (1..=40).map(|event| if event == 40 { "z" } else { "a" }).collect();
    case.reason(&ticket(999_999, &[2; 40], &rules), &labels, text, "numbers 256 and 336");
}

/// Of equally long rings the first in order, whatever their sums; before that, the fewest rules.
pub fn ties(case: &mut Stored) {
    let labels = ["one", "two", "three", "four"];
    let mut first = |rules: &[(u8, u8, i32)], text: &str, what: &str| {
        case.reason(&ticket(8, &[0, 1, 2, 3], rules), &labels, text, what);
    };
    let text = "at one camera\nby 1 -1\nat two wheel\nby 3 0\n";
    first(&[(1, 2, -1), (1, 2, -5), (2, 1, 0), (2, 1, -3)], text, "the lowest of several rules, not the tightest");
    first(&[(1, 2, -1), (1, 2, -1), (2, 1, 0), (2, 1, 0)], text, "the first of equal rules");
    let text = "at two wheel\nby 2 -4\nat one camera\nby 3 3\n";
    first(&[(1, 2, 5), (2, 1, -4), (1, 2, 3), (1, 2, 0)], text, "the lowest of several rules that is tight enough");
    let text = "at four stage\nby 1 0\nat three lamps\nby 4 -1\n";
    first(&[(4, 3, 0), (1, 2, -8), (2, 1, -8), (3, 4, -1)], text, "the ring with rule 1, not the one of least sum");
    let text = "at four stage\nby 4 0\nat three lamps\nby 5 -1\n";
    first(&[(1, 2, -8), (2, 3, -8), (3, 1, -8), (4, 3, 0), (3, 4, -1)], text, "two rules before three");
    // Also 1, 4, 2.
    let text = "at one camera\nby 1 -1\nat two wheel\nby 3 0\nat four stage\nby 5 0\n";
    first(&[(1, 2, -1), (3, 1, 0), (2, 4, 0), (2, 3, 0), (4, 1, 0)], text, "order of place, not of the lowest two");
    // Rules 1, 2, 4 sum to 0; also 3, 4, 5.
    let text = "at one camera\nby 1 1\nat two wheel\nby 3 0\nat three lamps\nby 4 -2\n";
    first(&[(1, 2, 1), (2, 3, 1), (2, 3, 0), (3, 1, -2), (1, 2, 0)], text, "what is spared once is not spared twice");
}

/// Names of two letters.
fn short_label(event: usize) -> String {
    String::from_utf8(vec![b'a' + event as u8 / 26, b'a' + event as u8 % 26]).unwrap_or_default()
}

/// From each point to the next, in all 41 points: the rule from p is the one whose number times 7 leaves p by 41, and
/// 7 times 6 leaves 1.
pub fn all_points(case: &mut Stored) {
    let owners: Vec<u8> = (1..=40).map(|event| event % 5).collect();
    let labels: Vec<String> = (1..=40).map(short_label).collect();
    let labels: Vec<&str> = labels.iter().map(String::as_str).collect();
    let ring = |last: i32| {
        let rule = |number: u32| match (number * 7 % 41) as u8 {
            0 => (0, 1, 5),
            40 => (40, 0, last),
            from => (from, from + 1, 0),
        };
        ticket(10, &owners, &(1..=41).map(rule).collect::<Vec<_>>())
    };
    let mut text = String::new();
    for point in (7..=40).chain(0..=6) {
        text += &match point {
            0 => "at start\nby 41 5\n".to_string(),
            _ => {
                let bound = if point == 40 { -6 } else { 0 };
                let device = ROSTER[point % 5];
                format!("at {} {device}\nby {} {bound}\n", short_label(point), point * 6 % 41)
            }
        };
    }
    case.reason(&ring(-6), &labels, &text, "a ring through all 41 points");
    for last in [-5, -4] {
        case.unreasoned(&asked(&ring(last), &labels, &ROSTER), calls::REASON, 17, "a ring of sum 0 or 1");
    }
}

/// Through all 41 points by rules 100 to 140, with names of 16 letters: no ticket has a longer text. Where the bounds
/// take more room than here, a ring with fewer rules goes by an unwritten one.
pub fn longest(case: &mut Stored) {
    let mut bounds = vec![1_000_000];
    bounds.extend([-100_000; 10]);
    for last in [-199_999, -199_999, -200_000] {
        bounds.push(999_999);
        bounds.extend([-100_000; 8]);
        bounds.push(last);
    }
    let mut rules = vec![(1, 2, 1_000_000); 99];
    rules.extend(bounds.iter().zip(0..).map(|(&bound, from)| (from, (from + 1) % 41, bound)));
    let labels: Vec<String> = (1..=40).map(|event| format!("abcdefghijklmn{}", short_label(event))).collect();
    let labels: Vec<&str> = labels.iter().map(String::as_str).collect();
    let roster = ["aaaaaaaaaaaaaaaa", "bbbbbbbbbbbbbbbb", "cccccccccccccccc", "dddddddddddddddd", "zzzzzzzzzzzzzzzz"];
    let mut text = "at start\nby 100 1000000\n".to_string();
    for (event, bound) in (1..=40).zip(&bounds[1..]) {
        text += &format!("at {} zzzzzzzzzzzzzzzz\nby {} {bound}\n", labels[event - 1], 100 + event);
    }
    case.says(text.len() == 2_101, "length of the longest text");
    case.reason_by(&ticket(1_000_000, &[4; 40], &rules), &labels, &roster, &text, "the longest text");
}

pub fn names(case: &mut Stored) {
    let opposed = ticket(10, &[0, 4], &[(1, 2, -1), (2, 1, 0)]);
    let text = "at a camera\nby 1 -1\nat zzzzzzzzzzzzzzzz database\nby 2 0\n";
    case.reason(&opposed, &["a", "zzzzzzzzzzzzzzzz"], text, "labels of 1 and 16 letters");
    let text = "at fragment camera\nby 1 -1\nat fragment database\nby 2 0\n";
    case.reason(&opposed, &["fragment", "fragment"], text, "equal labels");
    let text = "at database camera\nby 1 -1\nat camera database\nby 2 0\n";
    case.reason(&opposed, &["database", "camera"], text, "labels that are devices");
    let text = "at by at\nby 1 -1\nat at by\nby 2 0\n";
    case.reason_by(&opposed, &["by", "at"], &["at", "x", "x", "x", "by"], text, "names that are words of the text");
    let text = "at start stage\nby 1 -11\nat start\nby 3 10\n";
    case.reason(&ticket(10, &[3], &[(1, 0, -11)]), &["start"], text, "an event of the name start");
}

/// 10, then 1 to 8, then 16, then 17; length and output are looked at with each.
pub fn refusals(case: &mut Stored) {
    let impossible = asked(&two_opposed(), &["later", "sooner"], &ROSTER);
    let possible = asked(&two_trains(), &["first", "second"], &ROSTER);
    let unnamed = |of: &Asked| Asked { labels: Vec::new(), roster: Vec::new(), ..of.clone() };
    let nothing = unnamed(&Asked { ticket: Vec::new(), ..possible.clone() });
    for length in [0, 1, 45, 46, 2_101, 2_145, 2_199] {
        for of in [&impossible, &possible, &unnamed(&impossible), &nothing] {
            case.unreasoned(of, length, 10, "too short an output comes first");
        }
    }
    for (bytes, number) in unread() {
        let named = Asked { ticket: bytes, ..possible.clone() };
        case.unreasoned(&named, calls::REASON, number, "a ticket that is not read");
        case.unreasoned(&unnamed(&named), calls::REASON, number, "1 to 8 before 16");
    }
    for of in [&impossible, &possible] {
        let labels = Asked { labels: Vec::new(), ..of.clone() };
        let roster = Asked { roster: Vec::new(), ..of.clone() };
        for wrong in [labels, roster, unnamed(of)] {
            case.unreasoned(&wrong, calls::REASON, 16, "16 before 17 and before a ring");
        }
    }
    case.unreasoned(&possible, calls::REASON, 17, "P1 has a schedule");
    case.unreasoned(&asked(&ticket(0, &[], &[]), &[], &ROSTER), calls::REASON, 17, "P8 has a schedule");
    case.unreasoned(&asked(&ticket(0, &[], &[]), &["one"], &ROSTER), calls::REASON, 16, "a label without an event");
    case.unreasoned(&impossible, 2_200, 0, "an output of the least length");
    case.unreasoned(&impossible, 2_201, 0, "an output of a byte more");
}

/// Whatever breaks the layout of a list: its end, its count, a length byte, a letter.
pub fn lists(case: &mut Stored) {
    let good = asked(&two_opposed(), &["later", "sooner"], &ROSTER);
    let labels: [&[u8]; 16] = [
        b"\x02\0\x05later\x06sooner\0",
        b"\x02\0\x05later\x06soonera",
        b"\x02\0\x05later\x06sooner\x01a",
        b"\x01\0\x05later",
        b"\x01\0\x05later\x06sooner",
        b"\x03\0\x05later\x06sooner",
        b"\x03\0\x05later\x06sooner\x01a",
        b"\x02\x01\x05later\x06sooner",
        b"\0\x02\x05later\x06sooner",
        b"\x02\0\0\x06sooner",
        b"\x02\0\x05later\0",
        b"\x02\0\x05later\x11aaaaaaaaaaaaaaaaa",
        b"\x02\0\x05later\xffsooner",
        b"\x02\0\x05lat`r\x06sooner",
        b"\x02\0\x05later\x06{ooner",
        b"\x02\0\x05later\x06soonEr",
    ];
    for labels in labels {
        let wrong = Asked { labels: labels.to_vec(), ..good.clone() };
        case.unreasoned(&wrong, calls::REASON, 16, "a label list that breaks its layout");
    }
    let four = list(&ROSTER[..4]);
    let six = list(&["camera", "wheel", "lamps", "stage", "database", "door"]);
    let digit = list(&["camera", "wheel", "lamps", "stage", "database0"]);
    let empty = list(&["", "wheel", "lamps", "stage", "database"]);
    let long = list(&["camera", "wheel", "lamps", "stage", "databasedatabasea"]);
    let longer = [&good.roster[..], b"a"].concat();
    for roster in [four, six, digit, empty, long, longer] {
        let wrong = Asked { roster, ..good.clone() };
        case.unreasoned(&wrong, calls::REASON, 16, "a roster that breaks its layout");
    }
    for length in 0..good.labels.len() {
        let cut = Asked { labels: good.labels[..length].to_vec(), ..good.clone() };
        case.unreasoned(&cut, calls::REASON, 16, "labels that end early");
    }
    for length in 0..good.roster.len() {
        let cut = Asked { roster: good.roster[..length].to_vec(), ..good.clone() };
        case.unreasoned(&cut, calls::REASON, 16, "a roster that ends early");
    }
    let exchanged = Asked { labels: good.roster.clone(), roster: good.labels.clone(), ..good };
    case.unreasoned(&exchanged, calls::REASON, 16, "the lists exchanged");
}
