//! 02, change 7: a tick of width counts 3 for the camera, 1 for wheel, lamps and stage, 0 for the database.

use super::{record, ticket, two_trains, Stored};
use crate::model::Ticket;

/// P1's plan, its latest plan, and what is committed on them.
pub fn example_1(case: &mut Stored) {
    let plan = case.plan(&two_trains());
    case.windows(&plan, &[(5, 11), (9, 9)], "P1's plan");
    case.total(&plan, 18, "P1's total");
    let latest = case.plan_latest(&two_trains());
    case.windows(&latest, &[(9, 15), (13, 13)], "P1's latest plan");
    case.total(&latest, 18, "the total of P1's latest plan");
    let after = plan.and_then(|bytes| case.commit(&bytes, 1, 6, 10));
    case.windows(&after, &[(6, 10), (8, 10)], "the camera commits");
    case.total(&after, 14, "the total after the camera commits");
    let after = latest.and_then(|bytes| case.commit(&bytes, 2, 13, 13));
    case.windows(&after, &[(9, 15), (13, 13)], "the lamps commit");
    case.total(&after, 18, "the total after the lamps commit");
}

/// P4 with these owners: each event after the next one, in 0 to 5.
fn in_sequence(owners: [u8; 3]) -> Ticket {
    ticket(5, &owners, &[(1, 2, 0), (2, 3, 0)])
}

/// The windows of a device that counts are the same whatever a tick counts; those of the database are ticks.
pub fn alone(case: &mut Stored) {
    for (device, total) in [(0, 15), (1, 5), (2, 5), (3, 5)] {
        let plan = case.plan(&in_sequence([device; 3]));
        case.windows(&plan, &[(0, 5), (0, 0), (0, 0)], "P4 of one device");
        case.total(&plan, total, "the total of P4 of one device");
        let latest = case.plan_latest(&in_sequence([device; 3]));
        case.windows(&latest, &[(5, 5), (5, 5), (0, 5)], "the latest plan of P4 of one device");
        case.total(&latest, total, "the total of the latest plan of P4 of one device");
    }
    let plan = case.plan(&in_sequence([4; 3]));
    case.windows(&plan, &[(0, 0); 3], "P4 of the database");
    case.total(&plan, 0, "the total of P4 of the database");
    let latest = case.plan_latest(&in_sequence([4; 3]));
    case.windows(&latest, &[(5, 5); 3], "the latest plan of P4 of the database");
    let later = case.plan(&ticket(9, &[4, 4], &[(1, 0, -2), (2, 1, -3)]));
    case.windows(&later, &[(2, 2), (5, 5)], "earliest times of the database");
}

/// Event 1, of the camera, after some events of the stage that may take what it leaves: against two it has all the width,
/// against four none. Against three every share is as wide, and the earliest and the latest are its ends.
pub fn against_three(case: &mut Stored) {
    let shared = |others: usize| {
        let owners: Vec<u8> = [0].into_iter().chain(vec![3; others]).collect();
        let rules: Vec<(u8, u8, i32)> = (2..others as u8 + 2).map(|event| (1, event, 0)).collect();
        ticket(5, &owners, &rules)
    };
    let shares = |camera: (u32, u32), other: (u32, u32), others: usize| {
        [camera].into_iter().chain(vec![other; others]).collect::<Vec<_>>()
    };
    let (all, none) = (((0, 5), (0, 0)), ((5, 5), (0, 5)));
    for (others, earliest, latest, total) in [(2, all, all, 15), (3, all, none, 15), (4, none, none, 20)] {
        let plan = case.plan(&shared(others));
        case.windows(&plan, &shares(earliest.0, earliest.1, others), "the camera against events of the stage");
        case.total(&plan, total, "the total of the camera against events of the stage");
        let plan = case.plan_latest(&shared(others));
        case.windows(&plan, &shares(latest.0, latest.1, others), "the latest plan of the camera against the stage");
        case.total(&plan, total, "the total of the latest plan");
    }
}

/// The database gives way to any other device, and takes the earliest or the latest tick that is left.
pub fn database_beside(case: &mut Stored) {
    for (device, total) in [(0, 15), (1, 5), (2, 5), (3, 5)] {
        let plan = case.plan(&ticket(5, &[device, 4], &[]));
        case.windows(&plan, &[(0, 5), (0, 0)], "the database beside another device");
        case.total(&plan, total, "the total of the database beside another device");
        let latest = case.plan_latest(&ticket(5, &[device, 4], &[]));
        case.windows(&latest, &[(0, 5), (5, 5)], "the latest plan of the database beside another device");
        let between = case.plan(&in_sequence([4, device, 4]));
        case.windows(&between, &[(5, 5), (0, 5), (0, 0)], "between two events of the database");
        let around = case.plan(&in_sequence([device, 4, device]));
        case.windows(&around, &[(0, 5), (0, 0), (0, 0)], "around an event of the database");
    }
    let plan = case.plan(&in_sequence([3, 0, 3]));
    case.windows(&plan, &[(5, 5), (0, 5), (0, 0)], "the camera between two events of the stage");
    case.total(&plan, 15, "the total of the camera between two events of the stage");
}

/// "Fitness, the earliest choice among equals, and the containing of old windows are untouched, at weight 0 too."
pub fn database_commits(case: &mut Stored) {
    let pair = |rules: &[(u8, u8, i32)]| ticket(9, &[0, 4], rules);
    let after = case.commit(&record(pair(&[]), &[(0, 9), (3, 5)]), 1, 2, 2);
    case.windows(&after, &[(2, 2), (0, 5)], "the database's window contains its former one");
    case.total(&after, 0, "the total with the camera at a tick");
    let after = case.commit(&record(pair(&[]), &[(4, 6), (3, 5)]), 2, 3, 4);
    case.windows(&after, &[(0, 9), (3, 4)], "the database commits, and the camera widens");
    case.total(&after, 27, "the camera's total");
    let after = case.commit(&record(pair(&[(1, 2, -1)]), &[(6, 9), (3, 5)]), 1, 8, 9);
    case.windows(&after, &[(8, 9), (0, 5)], "the close stays though it could be later");
    let after = case.commit(&record(pair(&[(1, 2, -1)]), &[(6, 9), (3, 6)]), 1, 8, 9);
    case.refused(&after, "windows that are not fit at weight 0");
    let after = case.commit(&record(ticket(9, &[4, 4], &[]), &[(1, 2), (3, 5)]), 1, 2, 2);
    case.windows(&after, &[(2, 2), (0, 5)], "of the database alone");
}

/// A total counts committed windows too, each with its device's weight.
pub fn totals(case: &mut Stored) {
    let plan = case.plan(&ticket(9, &[0, 1, 2, 3, 4], &[]));
    case.windows(&plan, &[(0, 9), (0, 9), (0, 9), (0, 9), (0, 0)], "one event of each device");
    case.total(&plan, 54, "the total of one event of each device");
    let first = plan.and_then(|bytes| case.commit(&bytes, 1, 2, 4));
    case.total(&first, 33, "the total after the camera commits to 2..4");
    let second = first.and_then(|bytes| case.commit(&bytes, 3, 1, 5));
    case.total(&second, 28, "the total after the lamps commit to 1..5");
    let third = second.and_then(|bytes| case.commit(&bytes, 5, 0, 0));
    case.total(&third, 28, "the total after the database commits");
}

/// 40 events of the camera with no rules and the greatest horizon.
pub fn largest(case: &mut Stored) {
    let plan = case.plan(&ticket(1_000_000, &[0; 40], &[]));
    case.windows(&plan, &[(0, 1_000_000); 40], "the widest windows");
    case.total(&plan, 120_000_000, "the largest total");
}
