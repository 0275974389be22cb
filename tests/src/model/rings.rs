//! Rings of rules whose bounds sum below zero (02, change 2), in two ways: every walk of 1, 2, .. rules, for tiny tickets
//! and short rings; and least sums of walks, first for how many rules it takes, then for each lowest rule in turn with only
//! higher ones beside it. A ring is the list of its rules' numbers.

use super::{Solver, Ticket};

/// A rule that is written or not.
#[derive(Clone, Copy, Debug, PartialEq, Eq)]
pub struct Step {
    pub from: usize,
    pub to: usize,
    pub bound: i64,
}

/// All rules in the order of their numbers, from 1: the written ones, then "i to 0: 0" and "0 to i: H" for each event i.
pub fn numbered(ticket: &Ticket) -> Vec<Step> {
    let written = ticket.rules.iter();
    let mut steps: Vec<Step> =
        written.map(|r| Step { from: r.from as usize, to: r.to as usize, bound: r.bound as i64 }).collect();
    for event in 1..=ticket.events() {
        steps.push(Step { from: event, to: 0, bound: 0 });
        steps.push(Step { from: 0, to: event, bound: ticket.horizon as i64 });
    }
    steps
}

/// The ring with the fewest rules that, started at its lowest, comes first in order; none if there is no ring.
pub fn first(ticket: &Ticket, solver: Solver) -> Option<Vec<usize>> {
    let steps = numbered(ticket);
    let points = ticket.events() + 1;
    match solver {
        Solver::Exhaustive => shortest(points, &steps).into_iter().next(),
        Solver::Flow => by_sums(points, &steps),
    }
}

/// Whether the walk ends where it starts, sums below zero and starts at its lowest rule.
fn is_ring_from_lowest(steps: &[Step], walk: &[usize]) -> bool {
    let (start, end) = (walk[0], walk[walk.len() - 1]);
    steps[end - 1].to == steps[start - 1].from
        && walk.iter().map(|&number| steps[number - 1].bound).sum::<i64>() < 0
        && walk.iter().all(|&number| start <= number)
}

/// All rings with the fewest rules, each started at its lowest, in order: out of all walks of 1, 2, .. rules. A ring with
/// more rules than points meets a point twice, so it is two rings, and one of them sums below zero.
pub fn shortest(points: usize, steps: &[Step]) -> Vec<Vec<usize>> {
    let mut walks: Vec<Vec<usize>> = vec![Vec::new()];
    for _ in 0..points {
        let longer = walks.iter().flat_map(|walk| {
            let end = walk.last().map(|&number| steps[number - 1].to);
            let goes_on = move |&number: &usize| end.map_or(true, |end| steps[number - 1].from == end);
            (1..=steps.len()).filter(goes_on).map(|number| [&walk[..], &[number]].concat())
        });
        walks = longer.collect();
        let rings = walks.iter().filter(|walk| is_ring_from_lowest(steps, walk));
        let rings: Vec<Vec<usize>> = rings.cloned().collect();
        if !rings.is_empty() {
            return rings;
        }
    }
    Vec::new()
}

/// The least sum of a walk from each point to each; none where there is no walk.
type Sums = Vec<Vec<Option<i64>>>;

/// Of walks of no rule, and of the rules given.
fn at_most_one(points: usize, steps: &[Step]) -> Sums {
    let mut sums = vec![vec![None; points]; points];
    for step in steps {
        let sum = &mut sums[step.from][step.to];
        *sum = Some(sum.map_or(step.bound, |least: i64| least.min(step.bound)));
    }
    for (point, row) in sums.iter_mut().enumerate() {
        row[point] = Some(0);
    }
    sums
}

/// Of walks that go on from one to the other.
fn joined(first: &Sums, second: &Sums) -> Sums {
    let join = |row: &Vec<Option<i64>>| {
        let mut sums = vec![None; row.len()];
        for (start, onward) in row.iter().zip(second) {
            let Some(start) = start else { continue };
            for (sum, end) in sums.iter_mut().zip(onward) {
                let Some(end) = end else { continue };
                *sum = Some(sum.map_or(start + end, |least: i64| least.min(start + end)));
            }
        }
        sums
    };
    first.iter().map(join).collect()
}

fn has_ring(sums: &Sums) -> bool {
    sums.iter().enumerate().any(|(point, row)| row[point].is_some_and(|sum| sum < 0))
}

/// How many rules a ring takes at least: walks of at most 1, 2, 4, .. rules, each from two of half as many, until there is
/// a ring among them; then the most rules that make none, from halves and quarters on.
fn fewest(points: usize, steps: &[Step]) -> Option<usize> {
    let mut doubled = vec![at_most_one(points, steps)];
    while !has_ring(&doubled[doubled.len() - 1]) {
        if 1 << (doubled.len() - 1) >= points {
            return None;
        }
        let last = &doubled[doubled.len() - 1];
        doubled.push(joined(last, last));
    }
    doubled.pop();
    let (mut without, mut none) = (0, at_most_one(points, &[]));
    for (k, sums) in doubled.iter().enumerate().rev() {
        let longer = joined(&none, sums);
        if !has_ring(&longer) {
            (without, none) = (without + (1 << k), longer);
        }
    }
    Some(without + 1)
}

/// The first ring in order that has this many rules, `lowest` first and none lower; none if there is none.
fn with_lowest(points: usize, steps: &[Step], length: usize, lowest: usize) -> Option<Vec<usize>> {
    let start = steps[lowest - 1].from;
    // to_start[k][p] is the least sum of a walk of k of these rules from p to the start.
    let mut to_start: Vec<Vec<Option<i64>>> = vec![vec![None; points]];
    to_start[0][start] = Some(0);
    for k in 1..length {
        let mut sums: Vec<Option<i64>> = vec![None; points];
        for step in &steps[lowest - 1..] {
            if let Some(rest) = to_start[k - 1][step.to] {
                let sum = step.bound + rest;
                sums[step.from] = Some(sums[step.from].map_or(sum, |least| least.min(sum)));
            }
        }
        to_start.push(sums);
    }
    let (mut point, mut sum, mut ring) = (start, 0, Vec::new());
    for left in (0..length).rev() {
        let last = if ring.is_empty() { lowest } else { steps.len() };
        let number = (lowest..=last).find(|&number| {
            let Step { from, to, bound } = steps[number - 1];
            from == point && to_start[left][to].is_some_and(|rest| sum + bound + rest < 0)
        })?;
        point = steps[number - 1].to;
        sum += steps[number - 1].bound;
        ring.push(number);
    }
    Some(ring)
}

/// The first ring of this many rules.
pub fn of_length(points: usize, steps: &[Step], length: usize) -> Option<Vec<usize>> {
    (1..=steps.len()).find_map(|lowest| with_lowest(points, steps, length, lowest))
}

/// The first ring of the fewest rules.
pub fn by_sums(points: usize, steps: &[Step]) -> Option<Vec<usize>> {
    of_length(points, steps, fewest(points, steps)?)
}
