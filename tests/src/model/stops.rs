//! Least sums of bounds over paths whose inner points are stops already taken (02, change 3), in two ways: from each
//! point by Bellman and Ford, going on from stops alone; and, for few events, out of all paths that go on from no point
//! twice. Where there is a schedule no ring sums below zero, and the two agree.

use super::Solver;

/// What an output holds where there is no path.
pub const NO_PATH: i32 = i32::MAX;

/// The least sum of a path from each point to each; none where there is no path.
pub type Sums = Vec<Vec<Option<i64>>>;

/// For each point whether it is one of the first `count` of the stops n, n - 1, .., 1, 0.
pub fn taken(events: usize, count: u32) -> Vec<bool> {
    (0..=events).map(|point| events - point < count as usize).collect()
}

/// Of paths of these rules whose inner points are stops; the path of no rules leads from a point to itself.
pub fn sums(rules: &[(usize, usize, i64)], is_stop: &[bool], solver: Solver) -> Sums {
    let sources = 0..is_stop.len();
    match solver {
        Solver::Exhaustive => {
            let tightest = tightest(rules, is_stop.len());
            sources.map(|source| by_search(&tightest, is_stop, source)).collect()
        }
        Solver::Flow => sources.map(|source| by_rounds(rules, is_stop, source)).collect(),
    }
}

/// Whether the sum is below the least so far, which it then is.
fn improves(least: &mut Option<i64>, sum: i64) -> bool {
    let better = least.map_or(true, |least| sum < least);
    if better {
        *least = Some(sum);
    }
    better
}

/// Each round tries every rule that goes on from the source or from a stop, until nothing changes. A path that meets no
/// point twice has fewer rules than there are points.
fn by_rounds(rules: &[(usize, usize, i64)], is_stop: &[bool], source: usize) -> Vec<Option<i64>> {
    let mut sums = vec![None; is_stop.len()];
    sums[source] = Some(0);
    let onward: Vec<_> = rules.iter().filter(|rule| rule.0 == source || is_stop[rule.0]).collect();
    for _ in 0..is_stop.len() {
        let mut changed = false;
        for &&(from, to, bound) in &onward {
            if let Some(sum) = sums[from] {
                changed |= improves(&mut sums[to], sum + bound);
            }
        }
        if !changed {
            break;
        }
    }
    sums
}

/// The least bound from each point to each: paths are tried by their points.
fn tightest(rules: &[(usize, usize, i64)], points: usize) -> Sums {
    let mut bounds = vec![vec![None; points]; points];
    for &(from, to, bound) in rules {
        improves(&mut bounds[from][to], bound);
    }
    bounds
}

fn by_search(tightest: &Sums, is_stop: &[bool], source: usize) -> Vec<Option<i64>> {
    let mut least = vec![None; is_stop.len()];
    least[source] = Some(0);
    go_on(tightest, is_stop, &mut vec![source], 0, &mut least);
    least
}

/// Every path that begins with these points and this sum and goes on from no point twice.
fn go_on(tightest: &Sums, is_stop: &[bool], path: &mut Vec<usize>, sum: i64, least: &mut [Option<i64>]) {
    let end = path[path.len() - 1];
    for (to, bound) in tightest[end].iter().enumerate() {
        let Some(bound) = bound else { continue };
        improves(&mut least[to], sum + bound);
        if is_stop[to] && !path.contains(&to) {
            path.push(to);
            go_on(tightest, is_stop, path, sum + bound, least);
            path.pop();
        }
    }
}
