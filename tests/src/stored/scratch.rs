//! Lent scratch (02, change 9): 2,400 numbers are enough, whatever they hold, and no fewer.

use super::{by_owner, record, ticket, two_trains, Stored};
use crate::lent::PATTERNS;
use crate::mirror;
use crate::model::calls::{Answer, Delivery};
use crate::model::{writing, Prefer, Record, Ticket, Window, BOTH};
use crate::trial::{Lengths, ENOUGH, LEAST};

/// What is expected where this record of P1 is written.
fn written(record: Vec<u8>, total: u32) -> Delivery {
    Delivery { answer: Answer { number: 0, length: 78, total }, record }
}

/// P2's record: P1's event 1 committed to 10, and event 2 free in 8..14.
fn committed() -> Vec<u8> {
    let windows = [(10, 10), (8, 14)].map(|(open, close)| Window { open, close });
    let free = Record::new(two_trains(), windows.to_vec());
    writing::record(&Record { committed: vec![true, false], counts: [1, 0, 0, 0, 0], ..free })
}

/// Both plans of P1 and of tickets that are refused, P2, and commitments that are refused, with each length and each content
/// of the scratch: what is answered and written is the same, or it is 10. What is left in the scratch is looked at with each.
pub fn lengths(case: &mut Stored) {
    case.says(ENOUGH.scratch == 2_400, "the least scratch");
    let trains = writing::ticket(&two_trains());
    let impossible = writing::ticket(&ticket(10, &[3, 3], &[(1, 2, -1), (2, 1, 0)]));
    let plan = record(two_trains(), &[(5, 11), (9, 9)]);
    let latest = record(two_trains(), &[(9, 15), (13, 13)]);
    let refused = |number: u32| Delivery::of(&Err(number));
    let plans = [
        (Prefer::Earliest, &trains[..], written(plan.clone(), 18)),
        (Prefer::Latest, &trains, written(latest, 18)),
        (Prefer::Earliest, &impossible, refused(9)),
        (Prefer::Latest, &impossible, refused(9)),
        (Prefer::Earliest, &[], refused(1)),
        (Prefer::Latest, &[], refused(1)),
    ];
    let commitments = [
        (&plan[..], (1, 10, 10), written(committed(), 6)),
        (&plan, (1, 4, 10), refused(13)),
        (&plan, (3, 9, 9), refused(20)),
        (&[], (1, 10, 10), refused(1)),
    ];
    for pattern in PATTERNS {
        case.trial.pattern = Some(pattern);
        for scratch in [0, 1, 1_824, 2_399, 2_400, 2_401, 8_191, 8_192, 20_000] {
            let lengths = Lengths { scratch, ..ENOUGH };
            let accepts = |expected: &Delivery| expected.answer.number == 0 && scratch >= 2_400;
            for (prefer, bytes, expected) in &plans {
                let given = case.trial.plan_as(*prefer, bytes, expected, lengths);
                case.says(given.is_some() == accepts(expected), "2,400 numbers for a plan");
            }
            for (bytes, asked, expected) in &commitments {
                let given = case.trial.commit_as(bytes, by_owner(bytes, *asked), expected, lengths);
                case.says(given.is_some() == accepts(expected), "2,400 numbers for a commitment");
            }
        }
    }
}

/// Events 2 to `last` each come no sooner than the one before, a tick before the second before, and two ticks before the third
/// before; `others` no sooner than event 2, this no sooner than event 1, and that at 500 or later. A rule that comes after all
/// those among them raises them together, most of them in many steps: 127 with 20 events, 397 with 35 and one more for each of
/// the others, 420 with 36, 520 with 40. The last rule cannot be kept.
pub fn raised(last: u8, others: u8) -> Ticket {
    let mut rules = Vec::new();
    for event in 3..=last {
        for hop in 1..=3.min(event - 2) {
            rules.push((event, event - hop, hop as i32 - 1));
        }
    }
    rules.extend((1..=others).map(|other| (last + other, 2, 0)));
    rules.extend([(2, 1, 0), (1, 0, -500), (2, last, -1_001)]);
    let owners: Vec<u8> = (0..last + others).map(|event| event % 5).collect();
    ticket(1_000, &owners, &rules)
}

/// Events of `raised`. After 400 steps the library gives up and goes another way.
const RAISED: [(u8, u8); 11] =
    [(20, 0), (33, 0), (34, 0), (35, 0), (35, 1), (35, 2), (35, 3), (35, 4), (36, 0), (38, 0), (40, 0)];

/// With the last rule there is no plan, without it there is one. In the mirror the latest plan takes the steps of the plan.
pub fn raised_often(case: &mut Stored) {
    for (last, others) in RAISED {
        let raised = raised(last, others);
        for ticket in [mirror::ticket(&raised), raised] {
            let bytes = writing::ticket(&ticket);
            case.number(&bytes, 9, "a rule that cannot be kept");
            let mended = case.trial.mend(&bytes, LEAST);
            let kept = Ticket { rules: ticket.rules[..ticket.rules.len() - 1].to_vec(), ..ticket.clone() };
            let dropped = writing::dropped(&[ticket.rules.len() as u16]);
            case.says(mended == Some((writing::ticket(&kept), dropped)), "the last rule is dropped");
            for prefer in BOTH {
                let plan = case.preferred(prefer, &kept);
                case.says(plan.is_some(), "a plan without the last rule");
            }
        }
    }
}
