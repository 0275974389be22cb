//! Tickets, records, parts, views and lists to bytes.

use super::{Record, Ticket, Window};

pub fn ticket(ticket: &Ticket) -> Vec<u8> {
    let mut bytes = Vec::new();
    bytes.extend(ticket.horizon.to_le_bytes());
    bytes.extend((ticket.events() as u16).to_le_bytes());
    bytes.extend(&ticket.owners);
    bytes.extend((ticket.rules.len() as u16).to_le_bytes());
    for rule in &ticket.rules {
        bytes.extend([rule.from, rule.to]);
        bytes.extend(rule.bound.to_le_bytes());
    }
    bytes
}

pub fn record(record: &Record) -> Vec<u8> {
    let mut bytes = ticket(&record.ticket);
    bytes.extend((record.windows.len() as u16).to_le_bytes());
    bytes.extend((0..record.windows.len()).flat_map(|place| flagged(record, place)));
    bytes.extend((record.counts.len() as u16).to_le_bytes());
    for count in record.counts {
        bytes.extend((count as u16).to_le_bytes());
    }
    bytes
}

/// The nine bytes of the event at this place: flag, open and close.
fn flagged(record: &Record, place: usize) -> Vec<u8> {
    let Window { open, close } = record.windows[place];
    [&[record.committed[place] as u8][..], &open.to_le_bytes(), &close.to_le_bytes()].concat()
}

/// A list of dropped rules: their count, then their numbers.
pub fn dropped(numbers: &[u16]) -> Vec<u8> {
    [numbers.len() as u16].iter().chain(numbers).flat_map(|number| number.to_le_bytes()).collect()
}

/// A part: the number of its events, then each one's number, open and close.
pub fn part(events: &[usize], windows: &[Window]) -> Vec<u8> {
    let mut bytes = (events.len() as u16).to_le_bytes().to_vec();
    for (&event, window) in events.iter().zip(windows) {
        bytes.push(event as u8);
        bytes.extend(window.open.to_le_bytes());
        bytes.extend(window.close.to_le_bytes());
    }
    bytes
}

/// A view: the number of its events, then each one's number and its nine bytes of the record.
pub fn view(record: &Record, events: &[usize]) -> Vec<u8> {
    let mut bytes = (events.len() as u16).to_le_bytes().to_vec();
    for &event in events {
        bytes.push(event as u8);
        bytes.extend(flagged(record, event - 1));
    }
    bytes
}

/// A list of names: their count, then each after its length.
pub fn names(names: &[String]) -> Vec<u8> {
    let mut bytes = (names.len() as u16).to_le_bytes().to_vec();
    for name in names {
        bytes.push(name.len() as u8);
        bytes.extend(name.as_bytes());
    }
    bytes
}
