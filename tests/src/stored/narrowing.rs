//! Narrowing again (02, change 4): runs with the windows after each commitment, worked out by hand; a device's count up to
//! 65,535; refusals in their order.

use super::{by_owner, handed, record, section, three_in_sequence, ticket, two_trains, Stored};
use crate::model::{calls, reading, writing, Record, Ticket, Window, DEVICES};
use crate::trial::{Lengths, ENOUGH};

/// Event, open and close of a commitment; then the windows after it, or the number that it is refused under.
type Step<'a> = ((u32, u32, u32), Result<&'a [(u32, u32)], u32>);

/// The bytes of a record without its counts.
fn but_counts(record: &[u8]) -> &[u8] {
    &record[..record.len().saturating_sub(12)]
}

/// A record from elsewhere: its windows, which of the events are committed, and its counts.
fn elsewhere(ticket: Ticket, windows: &[(u32, u32)], committed: &[bool], counts: [u32; DEVICES]) -> Vec<u8> {
    let windows = windows.iter().map(|&(open, close)| Window { open, close }).collect();
    writing::record(&Record { ticket, committed: committed.to_vec(), windows, counts })
}

/// The trains of P1, both owned by the lamps.
fn lamps_only() -> Ticket {
    Ticket { owners: vec![2, 2], ..two_trains() }
}

/// The counts of a record, with one commitment more of this event.
fn counts_after(record: &[u8], event: u32) -> Result<[u32; DEVICES], u32> {
    let Record { ticket, mut counts, .. } = reading::record(record)?;
    let owner = ticket.owners.get(event as usize - 1).ok_or(20u32)?;
    counts[*owner as usize] += 1;
    Ok(counts)
}

impl Stored<'_> {
    /// The record after these steps from this one. Each that is accepted raises the count of the event's device by one.
    fn run(&mut self, start: &[u8], steps: &[Step], what: &str) -> Vec<u8> {
        let counts = |bytes: &[u8]| reading::record(bytes).map(|record| record.counts);
        let mut current = start.to_vec();
        for &((event, open, close), expected) in steps {
            match expected {
                Err(number) => self.uncommitted(&current, (event, open, close), number, what),
                Ok(windows) => {
                    let after = self.commit(&current, event, open, close);
                    self.windows(&after, windows, what);
                    let after = after.unwrap_or_default();
                    self.says(counts(&after) == counts_after(&current, event), "the device's count rises by one");
                    current = after;
                }
            }
        }
        current
    }

    /// P1's plan; no bytes if there is none.
    fn plan_1(&mut self) -> Vec<u8> {
        self.plan(&two_trains()).unwrap_or_default()
    }
}

/// Event 2 opens no sooner than 8 and 2 before event 1 closes, and closes no later than 4 after event 1 opens. Event 1 comes
/// to P2's window at once, in two steps and in three: all but the camera's count is P2's each time.
pub fn example_1(case: &mut Stored) {
    let plan = case.plan_1();
    let steps: [Step; 3] = [
        ((1, 6, 10), Ok(&[(6, 10), (8, 10)])),
        ((1, 8, 10), Ok(&[(8, 10), (8, 12)])),
        ((1, 10, 10), Ok(&[(10, 10), (8, 14)])),
    ];
    let at_once = case.run(&plan, &steps[2..], "P2");
    let in_two = case.run(&plan, &[steps[0], steps[2]], "P1's event 1 narrows again");
    let narrowed = case.run(&plan, &steps, "P1's event 1 narrows twice more");
    for other in [in_two, narrowed.clone()] {
        case.says(but_counts(&other) == but_counts(&at_once), "the last window counts");
    }
    // The other event narrows, too: it does not give event 1 anything back.
    let steps: [Step; 3] = [
        ((2, 8, 14), Ok(&[(10, 10), (8, 14)])),
        ((2, 9, 13), Ok(&[(10, 10), (9, 13)])),
        ((2, 9, 9), Ok(&[(10, 10), (9, 9)])),
    ];
    case.run(&narrowed, &steps, "both of P1's events narrow");
}

/// On a record just written the same window changes the count alone. On one from elsewhere, free windows may have room.
pub fn same_window(case: &mut Stored) {
    let plan = case.plan_1();
    let first = case.run(&plan, &[((1, 6, 10), Ok(&[(6, 10), (8, 10)]))], "event 1 commits");
    let mut current = first.clone();
    for count in 2..=300 {
        current = case.run(&current, &[((1, 6, 10), Ok(&[(6, 10), (8, 10)]))], "the same window again");
        let expected = [but_counts(&first), &section([count, 0, 0, 0, 0])].concat();
        case.says(current == expected, "the camera's count alone changes");
    }
    // Event 2 opens no sooner than 13: 2 before 15.
    let tick = elsewhere(two_trains(), &[(15, 15), (13, 13)], &[true, false], [1, 0, 0, 0, 0]);
    case.run(&tick, &[((1, 15, 15), Ok(&[(15, 15), (13, 19)]))], "the same tick, and room beside it");
    let wide = elsewhere(two_trains(), &[(12, 15), (13, 14)], &[true, false], [7, 0, 0, 0, 0]);
    case.run(&wide, &[((1, 12, 15), Ok(&[(12, 15), (13, 16)]))], "the same window, and room beside it");
}

/// The third event comes first and the first last. Were event 2 free, event 1 would leave it 1..4; were event 1 free,
/// event 2 would leave it 2..5.
pub fn others_stay(case: &mut Stored) {
    let plan = case.plan(&three_in_sequence()).unwrap_or_default();
    let steps: [Step; 6] = [
        ((1, 2, 4), Ok(&[(2, 4), (0, 2), (0, 0)])),
        ((2, 1, 2), Ok(&[(2, 4), (1, 2), (0, 1)])),
        ((1, 4, 4), Ok(&[(4, 4), (1, 2), (0, 1)])),
        ((2, 2, 2), Ok(&[(4, 4), (2, 2), (0, 2)])),
        ((3, 0, 1), Ok(&[(4, 4), (2, 2), (0, 1)])),
        ((3, 1, 1), Ok(&[(4, 4), (2, 2), (1, 1)])),
    ];
    case.run(&plan, &steps, "committed windows of other events stay");
    // Event 2 has no more than its own window, where a free one would grow to 8..14.
    let plan = case.plan_1();
    let steps: [Step; 3] = [
        ((1, 6, 10), Ok(&[(6, 10), (8, 10)])),
        ((2, 8, 10), Ok(&[(6, 10), (8, 10)])),
        ((1, 10, 10), Ok(&[(10, 10), (8, 10)])),
    ];
    case.run(&plan, &steps, "P1's event 2 stays");
}

/// Events 3 and 4 come after event 2 and before event 1, which comes 2 to 10 ticks after event 2. When event 3 narrows to 7,
/// the other two get 8 ticks: as wide as 7..12 and 2..5 are 8..12 and 2..6, and 9..12 and 2..7. If event 3 takes 7..12
/// first, event 2 gets 2..7 and keeps it.
pub fn widest_then_earliest(case: &mut Stored) {
    let ticket = ticket(12, &[2, 2, 1, 3], &[(1, 3, 0), (1, 4, 0), (3, 2, 0), (4, 2, 0), (1, 2, -2), (2, 1, 10)]);
    let latest = case.plan_latest(&ticket).unwrap_or_default();
    let steps: [Step; 2] = [
        ((3, 2, 12), Ok(&[(12, 12), (2, 2), (2, 12), (2, 12)])),
        ((4, 7, 7), Ok(&[(12, 12), (2, 2), (2, 12), (7, 7)])),
    ];
    let both = case.run(&latest, &steps, "nothing widens");
    let at_once: [Step; 1] = [((3, 7, 7), Ok(&[(7, 12), (2, 5), (7, 7), (7, 7)]))];
    case.run(&both, &at_once, "the earliest of the widest");
    let by_way: [Step; 2] =
        [((3, 7, 12), Ok(&[(12, 12), (2, 7), (7, 12), (7, 7)])), ((3, 7, 7), Ok(&[(9, 12), (2, 7), (7, 7), (7, 7)]))];
    case.run(&both, &by_way, "free windows keep what they got before");
}

/// Windows that the event had, or that would be fit, are outside of its present one.
pub fn no_growing(case: &mut Stored) {
    let plan = case.plan_1();
    let steps: [Step; 13] = [
        ((1, 6, 10), Ok(&[(6, 10), (8, 10)])),
        ((1, 5, 10), Err(13)),
        ((1, 8, 9), Ok(&[(8, 9), (8, 12)])),
        ((1, 6, 10), Err(13)),
        ((1, 5, 10), Err(13)),
        ((1, 7, 9), Err(13)),
        ((1, 8, 10), Err(13)),
        ((1, 10, 10), Err(13)),
        ((1, 6, 6), Err(13)),
        ((1, 9, 8), Err(13)),
        ((1, 9, 9), Ok(&[(9, 9), (8, 13)])),
        ((1, 8, 9), Err(13)),
        ((2, 8, 13), Ok(&[(9, 9), (8, 13)])),
    ];
    let after = case.run(&plan, &steps, "a committed window does not grow");
    // Beside 9..9 of event 2 all of 5..11 would be fit for event 1.
    let steps: [Step; 3] = [((2, 9, 9), Ok(&[(9, 9), (9, 9)])), ((1, 5, 11), Err(13)), ((1, 9, 10), Err(13))];
    case.run(&after, &steps, "nothing is given back");
}

/// A session of 1,000 ticks: the camera's event 1 moves its open a tick at a time, which event 2, that comes before it,
/// gets; then its close, which nobody gets.
pub fn tick_by_tick(case: &mut Stored) {
    let plan = case.plan(&ticket(1_000, &[0, 3], &[(1, 2, 0)]));
    case.windows(&plan, &[(0, 1_000), (0, 0)], "the plan");
    let mut current = plan.unwrap_or_default();
    for tick in 1..=100 {
        let after: &[(u32, u32)] = &[(tick, 1_000), (0, tick)];
        current = case.run(&current, &[((1, tick, 1_000), Ok(after))], "the open moves");
    }
    for tick in 1..=100 {
        let after: &[(u32, u32)] = &[(100, 1_000 - tick), (0, 100)];
        current = case.run(&current, &[((1, 100, 1_000 - tick), Ok(after))], "the close moves");
    }
    let counts = reading::record(&current).map(|record| record.counts);
    case.says(counts == Ok([200, 0, 0, 0, 0]), "200 commitments of one event");
}

/// 18 once the count of the lamps, which own both trains, stands at 65,535, for events that are committed and for free ones.
/// It may stand there at the start.
pub fn up_to_the_most(case: &mut Stored) {
    let windows = [(5, 10), (8, 9)];
    let with_count = |committed: &[bool], count| elsewhere(lamps_only(), &windows, committed, [0, 0, count, 0, 0]);
    for committed in [[true, false], [true, true], [false, false], [false, true]] {
        let start = with_count(&committed, 65_534);
        let after: &[(u32, u32)] = if committed[1] { &[(6, 10), (8, 9)] } else { &[(6, 10), (8, 10)] };
        let steps: [Step; 6] = [
            ((1, 4, 10), Err(13)),
            ((1, 6, 10), Ok(after)),
            ((1, 10, 10), Err(18)),
            ((1, 6, 10), Err(18)),
            ((2, 8, 9), Err(18)),
            ((2, 9, 9), Err(18)),
        ];
        let last = case.run(&start, &steps, "65,534, then 65,535, then 18");
        case.says(last.ends_with(&[5, 0, 0, 0, 0, 0, 255, 255, 0, 0, 0, 0]), "65,535 for the lamps");
        let full = with_count(&committed, 65_535);
        case.run(&full, &[((1, 5, 10), Err(18)), ((2, 9, 9), Err(18))], "65,535 at the start");
    }
    for (count, next) in [(255, [0, 1]), (256, [1, 1]), (32_767, [0, 128]), (65_279, [0, 255]), (65_533, [254, 255])] {
        let start = with_count(&[true, false], count);
        let after = case.run(&start, &[((1, 6, 10), Ok(&[(6, 10), (8, 10)]))], "a count from elsewhere");
        case.says(after.ends_with(&[5, 0, 0, 0, 0, 0, next[0], next[1], 0, 0, 0, 0]), "both bytes of the count");
    }
}

/// 10; 1 to 8 and 14 in the order of the bytes; 15; 20; 13; 18. What is left in output and scratch is looked at with each.
pub fn refusals(case: &mut Stored) {
    let fit = [(6, 9), (8, 10)];
    for committed in [[false, false], [true, false], [true, true]] {
        let full = elsewhere(two_trains(), &fit, &committed, [65_535; 5]);
        let (inside, outside, none) = ((1, 7, 9), (1, 5, 9), (3, 7, 9));
        // Both trains from earliest to latest are not fit.
        let unfit = elsewhere(two_trains(), &[(5, 15), (8, 19)], &committed, [65_535; 5]);
        for commitment in [inside, outside, none, (0, 9, 7)] {
            case.uncommitted(&unfit, commitment, 15, "15 before 20, 13 and 18");
        }
        for event in [0, 3, 256, 257, u32::MAX] {
            case.uncommitted(&full, (event, 7, 9), 20, "20 before 18");
            case.uncommitted(&full, (event, 9, 7), 20, "20 before 13 and 18");
        }
        for (open, close) in [(5, 9), (6, 10), (9, 7), (10, 10), (5, 5), (0, u32::MAX), (u32::MAX, 0)] {
            case.uncommitted(&full, (1, open, close), 13, "13 before 18");
        }
        case.uncommitted(&full, inside, 18, "18 after all others");
        let longer = [&full[..], &[0]].concat();
        case.uncommitted(&longer, inside, 8, "8 before 18");
        case.uncommitted(&full[..full.len() - 1], inside, 1, "1 before 18");
        for (out, scratch) in [(1, 0), (0, 1), (1, 1)] {
            let lengths = Lengths { out: ENOUGH.out - out, scratch: ENOUGH.scratch - scratch };
            for asked in [inside, outside, none] {
                let after = case.trial.commit(&full, by_owner(&full, asked), lengths);
                case.refused(&after, "10 before all others");
            }
        }
    }
    // P8 has no event to commit.
    let none = elsewhere(ticket(0, &[], &[]), &[], &[], [65_535; 5]);
    case.uncommitted(&none, (1, 0, 0), 20, "no event, and 65,535");
    // Fewer than the two flags: before the windows are looked at together, and before what follows.
    let below = elsewhere(lamps_only(), &[(5, 15), (8, 19)], &[true, true], [0, 0, 1, 0, 0]);
    case.uncommitted(&below, (0, 9, 7), 14, "14 before 15");
    case.uncommitted(&[&below[..], &[0]].concat(), (0, 9, 7), 14, "14 before 8");
}

/// A device's count is read from the number of its flags up to 65,535.
pub fn counts_read(case: &mut Stored) {
    for events in [0, 1, 2, 39, 40] {
        for set in [0, 1, 2, 38, 39, 40].into_iter().filter(|&set| set <= events) {
            let committed: Vec<bool> = (0..events).map(|k| k < set).collect();
            for count in (0..=42).chain([254, 255, 256, 257, 295, 296, 32_768, 65_280, 65_534, 65_535]) {
                let (ticket, windows) = (ticket(5, &vec![3; events], &[]), vec![(1, 4); events]);
                let record = elsewhere(ticket, &windows, &committed, [0, 0, 0, count, 0]);
                let expected = if count < set as u32 { 14 } else { 0 };
                case.trial.rewrite_record(&record, calls::RECORD);
                let given = calls::rewrite_record(&record, &mut vec![0; calls::RECORD]).0;
                case.says(given == expected, "counts from the flags up are read");
            }
        }
    }
    let windows = [(1, 4), (2, 2)];
    let two = |count| elsewhere(ticket(5, &[3, 3], &[]), &windows, &[true, true], [0, 0, 0, count, 0]);
    for count in [0, 1] {
        case.uncommitted(&two(count), (1, 2, 3), 14, "a count below the flags");
    }
    for count in [2, 3, 256, 65_534] {
        case.run(&two(count), &[((1, 2, 3), Ok(&[(2, 3), (2, 2)]))], "a count from the flags up");
    }
}

/// What is written is what would be read: a count above 65,535 does not fit its two bytes.
pub fn counts_written(case: &mut Stored) {
    let record = record(lamps_only(), &[(5, 10), (8, 9)]);
    for set in 0..=2u32 {
        for count in [0, 1, 2, 3, 256, 65_535, 65_536, 65_537, 65_538, 65_539, 1 << 24, u32::MAX] {
            let Some(mut values) = handed(&record, &[0, 0, count, 0, 0]) else {
                return case.says(false, "a record of P1's trains is read");
            };
            values.flags[..set as usize].fill(1);
            let expected = if (set..=65_535).contains(&count) { 0 } else { 14 };
            case.trial.write_record(&values, calls::RECORD);
            let given = calls::write_record(&values, &mut vec![0; calls::RECORD]).0;
            case.says(given == expected, "counts that are written");
        }
    }
}
