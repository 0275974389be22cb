//! Reasons in words (02, change 2): lists of names, the text of a ring, and the numbers and bounds read back from it.

use super::rings::Step;
use super::Ticket;

fn is_name(bytes: &[u8]) -> bool {
    (1..=16).contains(&bytes.len()) && bytes.iter().all(|byte| (b'a'..=b'z').contains(byte))
}

/// The names of a list that has to have this many; 16 if it breaks the layout.
pub fn names(list: &[u8], count: usize) -> Result<Vec<&[u8]>, u32> {
    let (head, mut rest) = list.split_at_checked(2).ok_or(16u32)?;
    if head[0] as usize + 256 * head[1] as usize != count {
        return Err(16);
    }
    let mut names = Vec::new();
    while let Some((&length, after)) = rest.split_first() {
        let (name, after) = after.split_at_checked(length as usize).ok_or(16u32)?;
        names.push(name);
        rest = after;
    }
    if names.len() == count && names.iter().all(|name| is_name(name)) {
        Ok(names)
    } else {
        Err(16)
    }
}

/// "at" and the names of an event and its device, or "at start".
fn point_line(ticket: &Ticket, labels: &[&[u8]], roster: &[&[u8]], point: usize) -> Vec<u8> {
    match point {
        0 => b"at start\n".to_vec(),
        _ => {
            let owner = ticket.owners[point - 1] as usize;
            [b"at ", labels[point - 1], b" ", roster[owner], b"\n"].concat()
        }
    }
}

/// "by", a rule's number and its bound.
fn rule_line(number: usize, bound: i64) -> Vec<u8> {
    format!("by {number} {bound}\n").into_bytes()
}

/// The ring's text: for each of its rules the point that it goes from, and the rule.
pub fn text(ticket: &Ticket, steps: &[Step], ring: &[usize], labels: &[&[u8]], roster: &[&[u8]]) -> Vec<u8> {
    let lines = ring.iter().map(|&number| {
        let Step { from, bound, .. } = steps[number - 1];
        [point_line(ticket, labels, roster, from), rule_line(number, bound)].concat()
    });
    lines.collect::<Vec<_>>().concat()
}

/// A decimal number as `text` writes one, and no other way to write it.
fn decimal(word: &str) -> Option<i64> {
    word.parse::<i64>().ok().filter(|number| number.to_string() == word)
}

/// Numbers and bounds of the rules, from the text alone; none if it is no such text.
pub fn read(text: &[u8]) -> Option<Vec<(usize, i64)>> {
    let lines = std::str::from_utf8(text).ok()?.strip_suffix('\n')?;
    let lines: Vec<Vec<&str>> = lines.split('\n').map(|line| line.split(' ').collect()).collect();
    let pairs = lines.chunks(2).map(|pair| match pair {
        [point, rule] => {
            let named = match point[..] {
                ["at", "start"] => true,
                ["at", label, device] => is_name(label.as_bytes()) && is_name(device.as_bytes()),
                _ => false,
            };
            match rule[..] {
                ["by", number, bound] if named => Some((decimal(number)?.try_into().ok()?, decimal(bound)?)),
                _ => None,
            }
        }
        _ => None,
    });
    pairs.collect()
}
