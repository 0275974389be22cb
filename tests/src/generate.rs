//! Tickets of several structures and sizes, windows and commitments on them, records that are alike for a device, damaged
//! bytes.

use crate::model::{distances, flags, writing, Commitment, Record, Rule, Ticket, Window};
use crate::model::{DATABASE, DEVICES, MOST_ACCEPTED};
use crate::random::Random;

#[derive(Clone, Copy, Debug, PartialEq, Eq)]
pub enum Structure {
    /// Rounds of wheel, stage, lamps, camera, database, each after the other within limits.
    Session,
    /// Many rules, all kept by one hidden schedule, with little or much room.
    Hidden,
    /// Each event after the one before it, within limits.
    Chain,
    /// One event before two, these two before a fourth, and so on.
    Diamonds,
    /// A ring of rules through all points, of sum -1, 0 or 1.
    Ring,
    /// Events in a random order of precedence.
    Precedence,
    /// Rules drawn without a plan: most have no schedule when there are many.
    Drawn,
    /// Only limits of single events against point 0.
    Single,
    /// Bounds and horizon at the ends of their ranges.
    Ends,
    /// Events between two others that keep a distance: when those between have committed, either of the two may widen.
    Squeezed,
}

pub const STRUCTURES: [Structure; 10] = [
    Structure::Session,
    Structure::Hidden,
    Structure::Chain,
    Structure::Diamonds,
    Structure::Ring,
    Structure::Precedence,
    Structure::Drawn,
    Structure::Single,
    Structure::Ends,
    Structure::Squeezed,
];

pub const MOST_RULES: usize = 256;
const FARTHEST: i64 = 1_000_000;

/// Rules as they are drawn: bounds are cut to the range, rules past the most are left out.
pub struct Rules {
    pub list: Vec<Rule>,
}

impl Rules {
    pub fn at_most(&mut self, from: usize, to: usize, bound: i64) {
        if from != to && self.list.len() < MOST_RULES {
            let bound = bound.clamp(-FARTHEST, FARTHEST) as i32;
            self.list.push(Rule { from: from as u8, to: to as u8, bound });
        }
    }

    /// `low` to `high` ticks after `from` comes `to`.
    fn between(&mut self, from: usize, to: usize, low: i64, high: i64) {
        self.at_most(from, to, high);
        self.at_most(to, from, -low);
    }
}

/// A ticket of this structure with n events and horizon H, rules in random order.
pub fn ticket(structure: Structure, n: usize, horizon: u32, random: &mut Random) -> Ticket {
    let mut rules = Rules { list: Vec::new() };
    let mut horizon = horizon;
    let h = horizon as i64;
    match structure {
        Structure::Session => session(&mut rules, n, h, random),
        Structure::Hidden => hidden(&mut rules, n, h, random),
        Structure::Chain => chain(&mut rules, n, h, random),
        Structure::Diamonds => diamonds(&mut rules, n, h, random),
        Structure::Ring => ring(&mut rules, n, h, random),
        Structure::Precedence => precedence(&mut rules, n, h, random),
        Structure::Drawn => drawn(&mut rules, n, h, random),
        Structure::Single => single(&mut rules, n, h, random),
        Structure::Ends => {
            horizon = random.pick(&[0, 1, 999_999, 1_000_000]);
            ends(&mut rules, n, random);
        }
        Structure::Squeezed => squeezed(&mut rules, n, h, random),
    }
    let owners = (0..n).map(|k| owner(structure, k, random)).collect();
    let order = random.order(rules.list.len());
    Ticket { horizon, owners, rules: order.into_iter().map(|k| rules.list[k]).collect() }
}

/// Devices whose events a ticket may have, and no other's: each alone, the camera or the wheel beside the database, the
/// camera beside the stage, all.
pub const DEVICE_SETS: [&[u8]; 9] = [&[0], &[1], &[2], &[3], &[4], &[0, 4], &[1, 4], &[0, 3], &[0, 1, 2, 3, 4]];

/// The ticket with its events shared out among these devices.
pub fn owned_by(devices: &[u8], ticket: Ticket, random: &mut Random) -> Ticket {
    Ticket { owners: ticket.owners.iter().map(|_| random.pick(devices)).collect(), ..ticket }
}

fn owner(structure: Structure, k: usize, random: &mut Random) -> u8 {
    match structure {
        Structure::Session => [1, 3, 2, 0, 4][k % 5],
        _ => random.below(5) as u8,
    }
}

fn session(rules: &mut Rules, n: usize, h: i64, random: &mut Random) {
    let step = (h / (n as i64 + 1)).max(1);
    for event in 1..=n {
        let previous = if event == 1 { 0 } else { event - 1 };
        let least = random.between(0, step / 2);
        rules.between(previous, event, least, least + random.between(0, 2 * step));
        if event > 5 {
            rules.at_most(event, event - 5, -random.between(0, step));
        }
        if event % 5 == 4 {
            rules.between(event - 1, event, 0, random.between(0, step));
        }
        if random.chance(30) {
            rules.at_most(0, event, random.between(step * event as i64, h.max(step * event as i64)));
        }
    }
    for _ in 0..n {
        let (i, j) = (random.below(n + 1), random.below(n + 1));
        rules.at_most(i, j, (j as i64 - i as i64 + 2).max(0) * step * 2);
    }
}

fn hidden(rules: &mut Rules, n: usize, h: i64, random: &mut Random) {
    let times: Vec<i64> = (0..=n).map(|k| if k == 0 { 0 } else { random.between(0, h) }).collect();
    let room = random.pick(&[0, 1, 3, h / 20, h / 4]);
    let count = random.pick(&[n, 3 * n, 6 * n, MOST_RULES, MOST_RULES]);
    for _ in 0..count {
        let (i, j) = (random.below(n + 1), random.below(n + 1));
        rules.at_most(i, j, times[j] - times[i] + random.between(0, room));
    }
}

fn chain(rules: &mut Rules, n: usize, h: i64, random: &mut Random) {
    let step = h / (n as i64 + 1);
    for event in 1..=n {
        let least = random.between(-step / 4, step);
        rules.between(event - 1, event, least, least + random.between(0, step.max(1)));
    }
    if random.chance(50) {
        rules.at_most(0, n, random.between(h / 2, h));
    }
}

fn diamonds(rules: &mut Rules, n: usize, h: i64, random: &mut Random) {
    let step = h / (n as i64 / 3 * 2 + 2);
    let mut top = 0;
    while top + 3 <= n {
        let bottom = top + 3;
        for side in [top + 1, top + 2] {
            rules.between(top, side, random.between(0, step), step + random.between(0, step));
            rules.between(side, bottom, random.between(0, step), step + random.between(0, step));
        }
        if random.chance(50) {
            rules.at_most(top, bottom, 2 * step);
        }
        top = bottom;
    }
    for event in top + 1..=n {
        rules.at_most(event, top, 0);
    }
}

fn ring(rules: &mut Rules, n: usize, h: i64, random: &mut Random) {
    let mut points = random.order(n + 1);
    if random.chance(50) {
        points.sort();
    }
    let times: Vec<i64> = (0..=n).map(|k| if k == 0 { 0 } else { random.between(0, h) }).collect();
    let sum = random.between(-1, 1);
    let odd = random.below(n + 1);
    for k in 0..=n {
        let (i, j) = (points[k], points[(k + 1) % (n + 1)]);
        rules.at_most(i, j, times[j] - times[i] + if k == odd { sum } else { 0 });
    }
    for _ in 0..random.pick(&[0, 0, n, MOST_RULES]) {
        let (i, j) = (random.below(n + 1), random.below(n + 1));
        rules.at_most(i, j, times[j] - times[i] + random.between(0, h / 8 + 1));
    }
}

fn precedence(rules: &mut Rules, n: usize, h: i64, random: &mut Random) {
    let order = random.order(n);
    let longest = h / (n as i64 + 1);
    let gap = random.pick(&[0, 1, longest]).min(longest);
    for _ in 0..random.pick(&[n, 2 * n, 5 * n, MOST_RULES]) {
        let (a, b) = (random.below(n.max(1)), random.below(n.max(1)));
        if a < b {
            rules.at_most(order[b] + 1, order[a] + 1, -random.between(0, gap));
        }
    }
}

fn drawn(rules: &mut Rules, n: usize, h: i64, random: &mut Random) {
    let count = random.pick(&[1, 2, 3, n / 2, n, 2 * n, MOST_RULES]);
    let shift = random.pick(&[0, h / 4, h / 2]);
    for _ in 0..count {
        let (i, j) = (random.below(n + 1), random.below(n + 1));
        rules.at_most(i, j, random.between(-h, h) + shift);
    }
}

fn single(rules: &mut Rules, n: usize, h: i64, random: &mut Random) {
    for event in 1..=n {
        let (a, b) = (random.between(0, h), random.between(0, h));
        rules.between(0, event, a.min(b), a.max(b));
    }
}

fn ends(rules: &mut Rules, n: usize, random: &mut Random) {
    for _ in 0..random.pick(&[1, n, 3 * n, MOST_RULES]) {
        let (i, j) = (random.below(n + 1), random.below(n + 1));
        let bound = random.pick(&[FARTHEST, FARTHEST, FARTHEST - 1, 0, 0, 1, -1, -FARTHEST]);
        rules.at_most(i, j, bound);
    }
}

fn squeezed(rules: &mut Rules, n: usize, h: i64, random: &mut Random) {
    let mut first = 1;
    while first + 2 <= n {
        let last = (first + random.pick(&[2, 3, 3, 4])).min(n);
        for event in first + 1..last {
            rules.at_most(event, first, 0);
            rules.at_most(last, event, 0);
        }
        let least = random.between(0, h);
        rules.between(first, last, least, random.between(least, h));
        first = last + 1;
    }
}

/// Rules from each event to the next in some order, and others, with bounds from 0 up to the greatest: the sum of a path
/// through many events is far above the horizon.
pub fn far(random: &mut Random) -> Ticket {
    let (n, horizon) = size(random);
    let mut order = random.order(n);
    match random.below(3) {
        0 => order.sort(),
        1 => order.sort_by(|a, b| b.cmp(a)),
        _ => {}
    }
    let mut rules = Rules { list: Vec::new() };
    for pair in order.windows(2) {
        rules.at_most(pair[0] + 1, pair[1] + 1, far_bound(random));
    }
    for _ in 0..random.pick(&[0, 0, n / 4, 3 * n]) {
        rules.at_most(random.below(n + 1), random.below(n + 1), far_bound(random));
    }
    let owners = (0..n).map(|_| random.below(5) as u8).collect();
    let order = random.order(rules.list.len());
    Ticket { horizon, owners, rules: order.into_iter().map(|k| rules.list[k]).collect() }
}

fn far_bound(random: &mut Random) -> i64 {
    let any = random.between(0, FARTHEST);
    random.pick(&[FARTHEST, FARTHEST, FARTHEST - 1, any])
}

/// As many rules as a ticket holds, all kept by one hidden schedule, with little or much room.
pub fn full(n: usize, horizon: u32, random: &mut Random) -> Ticket {
    let h = horizon as i64;
    let times: Vec<i64> = (0..=n).map(|k| if k == 0 { 0 } else { random.between(0, h) }).collect();
    let room = random.pick(&[0, 1, 3, h / 20, h / 4, h]);
    let mut rules = Rules { list: Vec::new() };
    while n > 0 && rules.list.len() < MOST_RULES {
        let (i, j) = (random.below(n + 1), random.below(n + 1));
        rules.at_most(i, j, times[j] - times[i] + random.between(0, room));
    }
    Ticket { horizon, owners: (0..n).map(|_| random.below(5) as u8).collect(), rules: rules.list }
}

/// Events of several devices and no rule that joins those of two: each device's have rules of one of the structures that go by
/// the horizon given.
pub fn separate(n: usize, horizon: u32, random: &mut Random) -> Ticket {
    let devices = random.pick(&DEVICE_SETS[5..]);
    let owners: Vec<u8> = (0..n).map(|_| random.pick(devices)).collect();
    let mut rules = Rules { list: Vec::new() };
    for device in 0..5 {
        let points: Vec<usize> = [0].into_iter().chain((1..=n).filter(|event| owners[event - 1] == device)).collect();
        let structure = loop {
            let drawn = random.pick(&STRUCTURES);
            // it has a horizon of its own
            if !matches!(drawn, Structure::Ends) {
                break drawn;
            }
        };
        for rule in ticket(structure, points.len() - 1, horizon, random).rules {
            rules.at_most(points[rule.from as usize], points[rule.to as usize], rule.bound as i64);
        }
    }
    let order = random.order(rules.list.len());
    Ticket { horizon, owners, rules: order.into_iter().map(|k| rules.list[k]).collect() }
}

/// At most 4 events over few ticks: every set of windows can be tried.
pub fn tiny(random: &mut Random) -> Ticket {
    let sizes = [(0, 3), (1, 6), (1, 0), (2, 4), (2, 7), (2, 1), (3, 3), (3, 4), (3, 5), (4, 2), (4, 1)];
    tiny_of(&sizes, random)
}

/// Numbers of events and horizons so small that every set of windows can be tried when a tick has 2 parts, and in six of them
/// up to 7.
pub const TINIEST: [(usize, u32); 11] =
    [(0, 3), (1, 0), (1, 3), (1, 6), (2, 1), (2, 2), (2, 3), (2, 4), (3, 1), (3, 2), (4, 1)];

/// A ticket with one of these numbers of events and horizons.
pub fn tiny_of(sizes: &[(usize, u32)], random: &mut Random) -> Ticket {
    let (n, horizon) = random.pick(sizes);
    let structure = random.pick(&STRUCTURES);
    if structure != Structure::Ends && random.chance(60) {
        return ticket(structure, n, horizon, random);
    }
    let mut rules = Rules { list: Vec::new() };
    for _ in 0..random.below(2 * n + 3) {
        let (i, j) = (random.below(n + 1), random.below(n + 1));
        let h = horizon as i64;
        rules.at_most(i, j, random.between(-h / 2 - 1, h + 1));
    }
    Ticket { horizon, owners: (0..n).map(|_| random.below(5) as u8).collect(), rules: rules.list }
}

/// Number of events and horizon of a ticket that is not tiny.
pub fn size(random: &mut Random) -> (usize, u32) {
    let n = match random.below(10) {
        0..=1 => 40,
        2 => random.pick(&[0, 1, 39]),
        3..=7 => 2 + random.below(11),
        _ => 2 + random.below(39),
    };
    let horizon = random.pick(&[0, 1, 10, 40, 1_000, 36_000, 999_999, 1_000_000, 1_000_000]);
    (n, horizon)
}

/// Fit windows that need not be widest: a schedule with each window grown by chance within the rules.
/// None if the ticket has no schedule.
pub fn fit_windows(ticket: &Ticket, random: &mut Random) -> Option<Vec<Window>> {
    let rows = distances::table(ticket)?;
    let n = ticket.events();
    // For each i, both D(i, j) - D(i, 0) and D(0, i) - D(j, i) over all j are schedules.
    let i = random.below(n + 1);
    let by_row = random.chance(50);
    let time = |j: usize| if by_row { rows[i][j] - rows[i][0] } else { rows[0][i] - rows[j][i] };
    let mut windows: Vec<Window> = (1..=n).map(|j| Window { open: time(j) as u32, close: time(j) as u32 }).collect();
    for k in random.order(n) {
        if random.chance(60) {
            let least = least_open(ticket, &windows, k);
            windows[k].open -= random.between(0, windows[k].open as i64 - least) as u32;
            let most = most_close(ticket, &windows, k);
            windows[k].close += random.between(0, most - windows[k].close as i64) as u32;
        }
    }
    Some(windows)
}

fn least_open(ticket: &Ticket, windows: &[Window], k: usize) -> i64 {
    let rules = ticket.rules.iter().filter(|r| r.from as usize == k + 1);
    let close = |point: u8| if point == 0 { 0 } else { windows[point as usize - 1].close as i64 };
    rules.map(|r| close(r.to) - r.bound as i64).fold(0, i64::max)
}

fn most_close(ticket: &Ticket, windows: &[Window], k: usize) -> i64 {
    let rules = ticket.rules.iter().filter(|r| r.to as usize == k + 1);
    let open = |point: u8| if point == 0 { 0 } else { windows[point as usize - 1].open as i64 };
    rules.map(|r| open(r.from) + r.bound as i64).fold(ticket.horizon as i64, i64::min)
}

/// A record that no planning made: fit windows and any flags, or, by chance, windows that are not fit.
pub fn foreign_record(ticket: Ticket, random: &mut Random) -> Record {
    let h = ticket.horizon as i64;
    let n = ticket.events();
    let fit = if random.chance(85) { fit_windows(&ticket, random) } else { None };
    let mut windows = fit.unwrap_or_else(|| {
        let pairs = (0..n).map(|_| (random.between(0, h) as u32, random.between(0, h) as u32));
        pairs.map(|(a, b)| Window { open: a.min(b), close: a.max(b) }).collect()
    });
    if n > 0 && random.chance(15) {
        // One tick more at one end: often one too many.
        let window = &mut windows[random.below(n)];
        if random.chance(50) {
            window.open = window.open.saturating_sub(1);
        } else {
            window.close = (window.close + 1).min(h as u32);
        }
    }
    flagged(ticket, windows, random)
}

/// The record of these windows with any flags and any counts that they allow: each device's on its own, or one near the
/// greatest and the others low.
pub fn flagged(ticket: Ticket, windows: Vec<Window>, random: &mut Random) -> Record {
    let share = random.pick(&[0, 0, 30, 80]);
    let committed: Vec<bool> = windows.iter().map(|_| random.chance(share)).collect();
    let mut record = Record { committed, ..Record::new(ticket, windows) };
    record.counts = if random.chance(70) {
        flags(&record.ticket.owners, &record.committed).map(|set| count(set, random))
    } else {
        let high = random.pick(&[MOST_ACCEPTED - 1, MOST_ACCEPTED]);
        one_high(&record, high, random)
    };
    record
}

/// A count beside this many flags: theirs, a few more, at a limit or any.
fn count(set: u32, random: &mut Random) -> u32 {
    match random.below(10) {
        0..=3 => set,
        4..=5 => set + random.between(1, 4) as u32,
        6 => random.pick(&[255, 256, 257, 32_767, 32_768]),
        7 => random.pick(&[MOST_ACCEPTED - 2, MOST_ACCEPTED - 1]),
        8 => MOST_ACCEPTED,
        _ => random.between(set as i64, MOST_ACCEPTED as i64) as u32,
    }
}

/// Counts of which one is this high, that of a device which owns an event if there is any, and the others the flags' or a
/// few more.
pub fn one_high(record: &Record, high: u32, random: &mut Random) -> [u32; DEVICES] {
    let owners = &record.ticket.owners;
    let device = if owners.is_empty() { random.below(DEVICES) } else { random.pick(owners) as usize };
    let mut counts = flags(owners, &record.committed).map(|set| set + random.below(4) as u32);
    counts[device] = high;
    counts
}

/// A commitment that may be accepted: an event, called by its owner, and a window inside its own. `again` percent of them are
/// to a committed event with more than one tick, if there is one; most others to a free one, if there is one.
pub fn commitment(record: &Record, again: usize, random: &mut Random) -> Commitment {
    let events = 0..record.windows.len();
    if events.is_empty() {
        return no_event(0, random);
    }
    let (mut wide, free): (Vec<usize>, Vec<usize>) = events.clone().partition(|&k| record.committed[k]);
    wide.retain(|&k| record.windows[k].open < record.windows[k].close);
    let drawn = random.below(100);
    let k = random.pick(&match drawn {
        _ if drawn < again && !wide.is_empty() => wide,
        _ if drawn < 95 && !free.is_empty() => free,
        _ => events.collect(),
    });
    commitment_at(record, k, random)
}

/// A commitment of the event at this place, called by its owner, to a window inside its own.
pub fn commitment_at(record: &Record, k: usize, random: &mut Random) -> Commitment {
    let Window { open, close } = inside(record.windows[k], random);
    Commitment { caller: record.ticket.owners[k] as u32, event: k as u32 + 1, open, close }
}

/// The commitment called by its event's owner, where there is no such event by any device, but one time in ten by any number.
pub fn called(commitment: Commitment, record: &Record, random: &mut Random) -> Commitment {
    let owner = record.owner(commitment.event).unwrap_or_else(|| random.below(DEVICES) as u32);
    let caller = if random.chance(90) { owner } else { some_caller(owner, random) };
    Commitment { caller, ..commitment }
}

/// A number for a caller: any device, the database, or a number above 4, also one that this device is the rest of.
pub fn some_caller(device: u32, random: &mut Random) -> u32 {
    match random.below(8) {
        0..=3 => random.below(DEVICES) as u32,
        4 => DATABASE as u32,
        5 => 5,
        6 => device + random.pick(&[5, 10, 256, 65_536, 0x0100_0000, 0x8000_0000]),
        _ => random.pick(&[6, 40, 255, 65_535, 0x7fff_ffff, u32::MAX]),
    }
}

/// A window inside this one: the same, a single tick, one end moved by up to a quarter, or any.
fn inside(window: Window, random: &mut Random) -> Window {
    let (open, close) = (window.open as i64, window.close as i64);
    let moved = random.between((close - open).min(1), (close - open + 3) / 4);
    let (a, b) = match random.below(12) {
        0..=1 => (open, close),
        2 => (open, open),
        3 => (close, close),
        4 => ((open + close) / 2, (open + close) / 2),
        5..=7 => (open + moved, close),
        8..=10 => (open, close - moved),
        _ => (random.between(open, close), random.between(open, close)),
    };
    Window { open: a.min(b) as u32, close: a.max(b) as u32 }
}

/// A commitment to an event that a record of n events does not have, called by the camera.
fn no_event(n: u32, random: &mut Random) -> Commitment {
    let event = random.pick(&[0, n + 1, n + 2, 255, 256, 65_536, u32::MAX]);
    Commitment { caller: 0, event, open: random.pick(&[0, 1, u32::MAX]), close: random.pick(&[0, 1, u32::MAX]) }
}

/// A commitment with something wrong: event, open or close; its caller is the owner, if there is one. `earlier` are wider
/// windows that a committed event must not get back.
pub fn refused_commitment(record: &Record, earlier: &[Window], random: &mut Random) -> Commitment {
    let n = record.windows.len() as u32;
    if n == 0 || random.chance(30) {
        return no_event(n, random);
    }
    let k = random.below(n as usize);
    refused_at(record, earlier, k, random)
}

/// A commitment of the event at this place, called by its owner, with something wrong in most cases: open or close.
pub fn refused_at(record: &Record, earlier: &[Window], k: usize, random: &mut Random) -> Commitment {
    let Window { open, close } = record.windows[k];
    let (open, close) = match random.below(9) {
        0 => (open.wrapping_sub(1), close),
        1 => (open, close + 1),
        2 => (close + 1, close),
        3 => (close, open),
        4 => (open, u32::MAX),
        5 => (earlier[k].open, earlier[k].close),
        6 => (earlier[k].open, close),
        7 => (open, earlier[k].close),
        _ => (random.next() as u32, random.next() as u32),
    };
    Commitment { caller: record.ticket.owners[k] as u32, event: k as u32 + 1, open, close }
}

/// A record with fit windows that is another one and alike for this device: its events have the same numbers, windows and
/// flags, and its count is the same.
pub fn alike(record: &Record, device: u8, random: &mut Random) -> Record {
    loop {
        let other = drawn_alike(record, device, random);
        if other != *record {
            return other;
        }
    }
}

/// The other events keep owner and flag, and have windows inside their own, or have any; after the device's last there may be
/// fewer or more of them. The horizon may be as early as the device's last close.
fn drawn_alike(record: &Record, device: u8, random: &mut Random) -> Record {
    let owns = |k: usize| record.ticket.owners.get(k) == Some(&device);
    let former = record.windows.len();
    let least = (0..former).rev().find(|&k| owns(k)).map_or(0, |k| k + 1);
    let n = if random.chance(40) { former } else { random.between(least as i64, 40) as usize };
    let latest = (0..former).filter(|&k| owns(k)).map(|k| record.windows[k].close).max().unwrap_or(0);
    let any = random.between(latest as i64, FARTHEST) as u32;
    let horizon = random.pick(&[record.ticket.horizon, record.ticket.horizon, latest, any]);
    let other = |random: &mut Random| (device + 1 + random.below(DEVICES - 1) as u8) % DEVICES as u8;
    let kept = random.pick(&[0, 50, 90]);
    let (mut owners, mut committed, mut windows) = (Vec::new(), Vec::new(), Vec::new());
    for k in 0..n {
        let known = k < former && record.windows[k].close <= horizon && random.chance(kept);
        let (owner, flag, window) = match known {
            _ if owns(k) => (device, record.committed[k], record.windows[k]),
            true => {
                let owner = if random.chance(50) { record.ticket.owners[k] } else { other(random) };
                (owner, record.committed[k] ^ random.chance(30), inside(record.windows[k], random))
            }
            false => {
                let (a, b) = (random.between(0, horizon as i64) as u32, random.between(0, horizon as i64) as u32);
                (other(random), random.chance(30), Window { open: a.min(b), close: a.max(b) })
            }
        };
        owners.push(owner);
        committed.push(flag);
        windows.push(window);
    }
    let rules = kept_rules(&record.ticket.rules, &windows, random);
    let mut counts = flags(&owners, &committed).map(|set| count(set, random));
    counts[device as usize] = record.counts[device as usize];
    Record { ticket: Ticket { horizon, owners, rules }, committed, windows, counts }
}

/// Rules that every choice of ticks in the windows keeps: most of these, loosened where the windows break them, and others.
fn kept_rules(rules: &[Rule], windows: &[Window], random: &mut Random) -> Vec<Rule> {
    let n = windows.len();
    let least = |from: usize, to: usize| {
        let open = if from == 0 { 0 } else { windows[from - 1].open as i64 };
        let close = if to == 0 { 0 } else { windows[to - 1].close as i64 };
        close - open
    };
    let mut list = Rules { list: Vec::new() };
    for rule in rules.iter().filter(|rule| rule.from as usize <= n && rule.to as usize <= n) {
        let (from, to) = (rule.from as usize, rule.to as usize);
        if random.chance(80) {
            list.at_most(from, to, least(from, to).max(rule.bound as i64));
        }
    }
    for _ in 0..random.pick(&[0, 2, n, MOST_RULES]) {
        let (from, to) = (random.below(n + 1), random.below(n + 1));
        let room = random.pick(&[0, 0, 1, 1_000]);
        list.at_most(from, to, least(from, to) + random.between(0, room));
    }
    list.list
}

/// A record's bytes damaged; one in five times in its counts alone.
pub fn damaged_record(record: &Record, random: &mut Random) -> Vec<u8> {
    if random.chance(80) {
        damaged(&writing::record(record), random)
    } else {
        damaged_counts(record, random)
    }
}

/// A record's bytes with the number of its counts, or one of these, at a limit or off by one. Half of them end inside the
/// counts or have a byte more.
pub fn damaged_counts(record: &Record, random: &mut Random) -> Vec<u8> {
    let mut bytes = writing::record(record);
    let start = bytes.len() - 2 - 2 * DEVICES;
    let set = flags(&record.ticket.owners, &record.committed);
    let flagged: Vec<usize> = (0..DEVICES).filter(|&device| set[device] > 0).collect();
    let device = if flagged.is_empty() { random.below(DEVICES) } else { random.pick(&flagged) };
    let below = set[device].saturating_sub(1);
    let (at, value) = if random.chance(30) {
        (start, random.pick(&[0, 1, 4, 6, 5 + 256, 5 * 256, 65_535]))
    } else {
        let values = [0, below, below, set[device], set[device] + 256, MOST_ACCEPTED];
        (start + 2 + 2 * device, random.pick(&values))
    };
    bytes[at..at + 2].copy_from_slice(&(value as u16).to_le_bytes());
    match random.below(4) {
        0 => bytes.truncate(random.between(start as i64, bytes.len() as i64 - 1) as usize),
        1 => bytes.push(random.next() as u8),
        _ => {}
    }
    bytes
}

/// Bytes with a few of them changed, cut off or added.
pub fn damaged(bytes: &[u8], random: &mut Random) -> Vec<u8> {
    let mut bytes = bytes.to_vec();
    for _ in 0..1 + random.below(3) {
        match random.below(8) {
            0 => bytes.truncate(random.below(bytes.len() + 1)),
            1 => bytes.extend((0..1 + random.below(12)).map(|k| k as u8)),
            2 if !bytes.is_empty() => {
                bytes.remove(random.below(bytes.len()));
            }
            3 => bytes.insert(random.below(bytes.len() + 1), random.next() as u8),
            _ if !bytes.is_empty() => {
                let at = random.below(bytes.len());
                let old = bytes[at];
                bytes[at] = match random.below(4) {
                    0 => random.next() as u8,
                    1 => old.wrapping_add(1),
                    2 => old.wrapping_sub(1),
                    _ => random.pick(&[0, 1, 5, 0x7f, 0x80, 0xff]),
                };
            }
            _ => {}
        }
    }
    bytes
}
