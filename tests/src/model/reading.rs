//! Bytes to tickets, records, parts and lists of dropped rules: field by field in byte order, presence before value.

use super::{flags, Record, Rule, Ticket, Window, DEVICES, MOST_ACCEPTED};

struct Fields<'a> {
    bytes: &'a [u8],
}

impl<'a> Fields<'a> {
    /// The next field of `size` bytes; 1 if the bytes end inside it.
    fn take(&mut self, size: usize) -> Result<&'a [u8], u32> {
        if self.bytes.len() < size {
            return Err(1);
        }
        let (field, rest) = self.bytes.split_at(size);
        self.bytes = rest;
        Ok(field)
    }

    fn number(&mut self, size: usize) -> Result<u32, u32> {
        Ok(little_endian(self.take(size)?))
    }
}

fn little_endian(field: &[u8]) -> u32 {
    field.iter().rev().fold(0, |value, &byte| value * 256 + byte as u32)
}

fn require(condition: bool, number: u32) -> Result<(), u32> {
    if condition {
        Ok(())
    } else {
        Err(number)
    }
}

pub fn horizon_in_range(horizon: u32) -> Result<(), u32> {
    require(horizon <= 1_000_000, 2)
}

pub fn events_in_range(events: u32) -> Result<(), u32> {
    require(events <= 40, 3)
}

pub fn owner_in_range(owner: u8) -> Result<(), u32> {
    require(owner <= 4, 4)
}

/// The device that a commitment or a view names as its caller.
pub fn caller_in_range(caller: u32) -> Result<(), u32> {
    require((caller as usize) < DEVICES, 19)
}

pub fn rules_in_range(rules: u32) -> Result<(), u32> {
    require(rules <= 256, 5)
}

pub fn rule_in_range(rule: &Rule, events: usize) -> Result<(), u32> {
    let points = rule.from as usize <= events && rule.to as usize <= events && rule.from != rule.to;
    require(points, 6)?;
    require((-1_000_000..=1_000_000).contains(&rule.bound), 7)
}

/// A window with its flag.
pub fn window_in_range(flag: u8, window: Window, horizon: u32) -> Result<(), u32> {
    require(flag <= 1 && window.open <= window.close && window.close <= horizon, 14)
}

/// A device's count: at least as many as the flags set of its events.
pub fn count_in_range(count: u32, set: u32) -> Result<(), u32> {
    require((set..=MOST_ACCEPTED).contains(&count), 14)
}

fn ticket_fields(fields: &mut Fields) -> Result<Ticket, u32> {
    let horizon = fields.number(4)?;
    horizon_in_range(horizon)?;
    let events = fields.number(2)?;
    events_in_range(events)?;
    let mut owners = Vec::new();
    for _ in 0..events {
        let owner = fields.take(1)?[0];
        owner_in_range(owner)?;
        owners.push(owner);
    }
    let count = fields.number(2)?;
    rules_in_range(count)?;
    let mut rules = Vec::new();
    for _ in 0..count {
        let field = fields.take(6)?;
        let rule = Rule { from: field[0], to: field[1], bound: little_endian(&field[2..]) as i32 };
        rule_in_range(&rule, owners.len())?;
        rules.push(rule);
    }
    Ok(Ticket { horizon, owners, rules })
}

/// A whole ticket, or the first of 1 to 8 that applies.
pub fn ticket(bytes: &[u8]) -> Result<Ticket, u32> {
    let mut fields = Fields { bytes };
    let ticket = ticket_fields(&mut fields)?;
    require(fields.bytes.is_empty(), 8)?;
    Ok(ticket)
}

/// The numbers of a whole list of dropped rules; none if its count is not theirs.
pub fn dropped(bytes: &[u8]) -> Option<Vec<usize>> {
    let mut fields = Fields { bytes };
    let count = fields.number(2).ok()?;
    let numbers = (0..count).map(|_| fields.number(2).map(|number| number as usize)).collect::<Result<_, u32>>();
    numbers.ok().filter(|_| fields.bytes.is_empty())
}

/// The events of a whole part and their windows; none if its count is not theirs.
pub fn part(bytes: &[u8]) -> Option<Vec<(usize, Window)>> {
    let mut fields = Fields { bytes };
    let count = fields.number(2).ok()?;
    let mut event = || -> Result<(usize, Window), u32> {
        Ok((fields.number(1)? as usize, Window { open: fields.number(4)?, close: fields.number(4)? }))
    };
    let events = (0..count).map(|_| event()).collect::<Result<_, u32>>();
    events.ok().filter(|_| fields.bytes.is_empty())
}

/// A whole record, or the first of 1 to 8 and 14 that applies.
pub fn record(bytes: &[u8]) -> Result<Record, u32> {
    let mut fields = Fields { bytes };
    let ticket = ticket_fields(&mut fields)?;
    require(fields.number(2)? as usize == ticket.events(), 14)?;
    let mut committed = Vec::new();
    let mut windows = Vec::new();
    for _ in 0..ticket.events() {
        let field = fields.take(9)?;
        let window = Window { open: little_endian(&field[1..5]), close: little_endian(&field[5..]) };
        window_in_range(field[0], window, ticket.horizon)?;
        committed.push(field[0] == 1);
        windows.push(window);
    }
    require(fields.number(2)? as usize == DEVICES, 14)?;
    let mut counts = [0; DEVICES];
    for (count, set) in counts.iter_mut().zip(flags(&ticket.owners, &committed)) {
        *count = fields.number(2)?;
        count_in_range(*count, set)?;
    }
    require(fields.bytes.is_empty(), 8)?;
    Ok(Record { ticket, committed, windows, counts })
}
