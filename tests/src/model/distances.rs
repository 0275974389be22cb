//! Shortest paths by Bellman and Ford: is there a schedule, and the table of distances.

use super::Ticket;

/// Lengths of shortest paths from `source`; none if a ring of rules sums below zero.
/// Every point has to be joined to point 0 both ways, so that each source meets each ring.
pub fn shortest(points: usize, rules: &[(usize, usize, i64)], source: usize) -> Option<Vec<i64>> {
    let mut length: Vec<Option<i64>> = vec![None; points];
    length[source] = Some(0);
    for _ in 0..=points {
        let mut changed = false;
        for &(from, to, bound) in rules {
            if let Some(start) = length[from] {
                if length[to].map_or(true, |now| start + bound < now) {
                    length[to] = Some(start + bound);
                    changed = true;
                }
            }
        }
        if !changed {
            return length.into_iter().collect();
        }
    }
    None
}

pub fn has_schedule(ticket: &Ticket) -> bool {
    shortest(ticket.events() + 1, &ticket.all_rules(), 0).is_some()
}

/// Row i holds D(i, 0) to D(i, n); none if no schedule exists.
pub fn table(ticket: &Ticket) -> Option<Vec<Vec<i64>>> {
    let points = ticket.events() + 1;
    let rules = ticket.all_rules();
    (0..points).map(|source| shortest(points, &rules, source)).collect()
}
