//! Tickets in eleven shapes, most of them impossible: six for reasons in words, all for mending. And what else a reason is
//! asked for with: lists of names, good and bad.

use crate::generate::{self, Rules, MOST_RULES, STRUCTURES};
use crate::model::calls::Asked;
use crate::model::{writing, Ticket, DEVICES};
use crate::random::Random;

#[derive(Clone, Copy, Debug, PartialEq, Eq)]
pub enum Shape {
    /// One ring through some points or all, some of its rules written twice, and other rules that close none.
    Ring,
    /// Points in layers, with one or more rules from each to each of the next layer: many rings, a rule for each layer.
    Layers,
    /// A few pairs of rules that contradict each other.
    Opposed,
    /// Events one after the other that take as long as the session, a tick less or a tick more: a ring by unwritten rules.
    Crowded,
    /// Bounds a tick or two from a schedule: many short rings.
    Knotted,
    /// The rules of one of the ten structures.
    Structure,
    /// A path through all points, and rules back from its points to earlier ones: rings of sum -2 and above that share rules.
    Shared,
    /// Rings of sum -1, 0 or 1 that share no rule.
    Apart,
    /// Rules that cannot be kept even alone, in some tickets a few others among them.
    Hopeless,
    /// As many rules as a ticket holds, each kept by one of two lists of times.
    Mixed,
    /// Limits of single events around 0, H and a tick between, and rules from event to event that bring two limits together.
    Limits,
}

/// The shapes for reasons.
pub const SHAPES: [Shape; 6] =
    [Shape::Ring, Shape::Layers, Shape::Opposed, Shape::Crowded, Shape::Knotted, Shape::Structure];

pub const ALL_SHAPES: [Shape; 11] = [
    Shape::Ring,
    Shape::Layers,
    Shape::Opposed,
    Shape::Crowded,
    Shape::Knotted,
    Shape::Structure,
    Shape::Shared,
    Shape::Apart,
    Shape::Hopeless,
    Shape::Mixed,
    Shape::Limits,
];

/// A ticket of this shape with up to 40 events.
pub fn ticket(shape: Shape, random: &mut Random) -> Ticket {
    let (n, horizon) = generate::size(random);
    shaped(shape, n, horizon, MOST_RULES, random)
}

/// A ticket of this shape with few events.
pub fn small(shape: Shape, random: &mut Random) -> Ticket {
    let n = random.below(7);
    shaped(shape, n, 10, 30, random)
}

/// A ticket of one of these shapes with so few events and rules that every walk can be tried, and so few ticks that every
/// schedule can.
pub fn tiny(shapes: &[Shape], random: &mut Random) -> Ticket {
    let shape = random.pick(shapes);
    let (n, horizon) = random.pick(&[(0, 3), (1, 6), (2, 0), (2, 1), (2, 7), (3, 3), (3, 5), (4, 2), (4, 4), (4, 5)]);
    let most = random.pick(&[5, 8, 12, 12]);
    shaped(shape, n, horizon, most, random)
}

/// The first `most` rules of this shape, in random order.
fn shaped(shape: Shape, n: usize, horizon: u32, most: usize, random: &mut Random) -> Ticket {
    let mut rules = Rules { list: Vec::new() };
    let h = horizon as i64;
    // Times that keep all rules but those that close a ring, sometimes away from 0 and H.
    let inside = if h >= 2 && random.chance(60) { 1..=h - 1 } else { 0..=h };
    let times: Vec<i64> =
        (0..=n).map(|k| if k == 0 { 0 } else { random.between(*inside.start(), *inside.end()) }).collect();
    match shape {
        Shape::Ring => ring(&mut rules, &times, h, random),
        Shape::Layers => layers(&mut rules, &times, random),
        Shape::Opposed => opposed(&mut rules, &times, h, random),
        Shape::Crowded => crowded(&mut rules, n, h, random),
        Shape::Knotted => knotted(&mut rules, &times, random),
        Shape::Structure => rules.list = generate::ticket(random.pick(&STRUCTURES), n, horizon, random).rules,
        Shape::Shared => shared(&mut rules, &times, random),
        Shape::Apart => apart(&mut rules, &times, random),
        Shape::Hopeless => hopeless(&mut rules, &times, h, random),
        Shape::Mixed => mixed(&mut rules, &times, h, random),
        Shape::Limits => limits(&mut rules, &times, h, random),
    }
    rules.list.truncate(most);
    let order = random.order(rules.list.len());
    let owners = (0..n).map(|_| random.below(DEVICES) as u8).collect();
    Ticket { horizon, owners, rules: order.into_iter().map(|k| rules.list[k]).collect() }
}

/// Rules between any points that the times keep, with `least` ticks to spare or more.
fn kept(rules: &mut Rules, times: &[i64], count: usize, least: i64, h: i64, random: &mut Random) {
    for _ in 0..count {
        let (i, j) = (random.below(times.len()), random.below(times.len()));
        rules.at_most(i, j, times[j] - times[i] + least + random.between(0, h / 8 + 1));
    }
}

fn ring(rules: &mut Rules, times: &[i64], h: i64, random: &mut Random) {
    let points = times.len();
    let some = 1 + random.below(points);
    let length = random.pick(&[points, points, points, points.min(2), points.min(3), some]);
    let order = random.order(points);
    let sum = random.pick(&[-1, -1, -1, -2, 0, 1]);
    let odd = random.below(length);
    let twice = random.pick(&[0, 0, 30]);
    for k in 0..length {
        let (i, j) = (order[k], order[(k + 1) % length]);
        let bound = times[j] - times[i] + if k == odd { sum } else { 0 };
        rules.at_most(i, j, bound);
        while random.chance(twice) {
            rules.at_most(i, j, bound + random.between(0, 2));
        }
    }
    let count = random.pick(&[0, points, MOST_RULES]);
    let least = random.pick(&[0, 1, 2]);
    kept(rules, times, count, least, h, random);
}

fn layers(rules: &mut Rules, times: &[i64], random: &mut Random) {
    let points = times.len();
    let width = 1 + random.below(4).min(points / 2);
    let count = (points / width).max(1);
    let order = random.order(points);
    let sum = random.pick(&[-1, -1, -2, -3, 0]);
    let twice = random.pick(&[0, 10, 50]);
    for layer in 0..count {
        let closing = if layer + 1 == count { sum } else { 0 };
        for (a, b) in (0..width).flat_map(|a| (0..width).map(move |b| (a, b))) {
            let (i, j) = (order[layer * width + a], order[(layer + 1) % count * width + b]);
            let bound = times[j] - times[i] + closing;
            rules.at_most(i, j, bound + random.pick(&[0, 0, 0, 1, 2]));
            while random.chance(twice) {
                rules.at_most(i, j, bound + random.pick(&[0, 1, 2]));
            }
        }
    }
}

fn opposed(rules: &mut Rules, times: &[i64], h: i64, random: &mut Random) {
    for _ in 0..1 + random.below(4) {
        let (i, j) = (random.below(times.len()), random.below(times.len()));
        let apart = times[j] - times[i] + random.between(-2, 2);
        rules.at_most(i, j, apart);
        rules.at_most(j, i, -apart - random.pick(&[0, 1, 1, 2, h / 2]));
    }
    let count = random.pick(&[0, times.len(), MOST_RULES]);
    kept(rules, times, count, 0, h, random);
}

fn crowded(rules: &mut Rules, n: usize, h: i64, random: &mut Random) {
    let order = random.order(n);
    let chains = random.pick(&[1, 1, 2, 3]);
    for chain in order.chunks((n / chains).max(1)) {
        let events: Vec<usize> = chain.iter().map(|k| k + 1).collect();
        let gaps = events.len() as i64 - 1;
        let mut left = h + random.pick(&[-1, 0, 1, 1, 1, 2]);
        for (k, pair) in events.windows(2).enumerate() {
            let more = gaps - k as i64;
            let gap = if more == 1 { left } else { random.between(0, (2 * left / more).clamp(0, left.max(0))) };
            rules.at_most(pair[1], pair[0], -gap);
            left -= gap;
        }
        // Limits of the first and the last that are written, too.
        if random.chance(30) {
            rules.at_most(events[0], 0, -random.between(0, 1));
        }
        if random.chance(30) {
            rules.at_most(0, events[events.len() - 1], h - random.between(-1, 1));
        }
    }
}

fn knotted(rules: &mut Rules, times: &[i64], random: &mut Random) {
    let least = random.pick(&[-2, -1, -1]);
    for _ in 0..random.pick(&[times.len(), 3 * times.len(), MOST_RULES]) {
        let (i, j) = (random.below(times.len()), random.below(times.len()));
        rules.at_most(i, j, times[j] - times[i] + random.between(least, 3));
    }
}

fn shared(rules: &mut Rules, times: &[i64], random: &mut Random) {
    let points = times.len();
    let order = random.order(points);
    for pair in order.windows(2) {
        rules.at_most(pair[0], pair[1], times[pair[1]] - times[pair[0]] + random.pick(&[0, 0, 0, 1]));
    }
    for _ in 0..random.pick(&[2, points, 2 * points, MOST_RULES]) {
        let (a, b) = (random.below(points), random.below(points));
        let (i, j) = (order[a.max(b)], order[a.min(b)]);
        rules.at_most(i, j, times[j] - times[i] + random.between(-2, 1));
    }
}

fn apart(rules: &mut Rules, times: &[i64], random: &mut Random) {
    for _ in 0..random.pick(&[1, 2, 5]) {
        let order = random.order(times.len());
        for ring in order.chunks(random.pick(&[2, 3, 5, 12])) {
            let (odd, sum) = (random.below(ring.len()), random.between(-1, 1));
            for (k, &i) in ring.iter().enumerate() {
                let j = ring[(k + 1) % ring.len()];
                rules.at_most(i, j, times[j] - times[i] + if k == odd { sum } else { 0 });
            }
        }
    }
}

/// A difference of two times is -H or more, and a time 0 or more. At the greatest horizon a rule with -H - 1 cannot be
/// written; it is cut to -H, and two of these may conflict.
fn hopeless(rules: &mut Rules, times: &[i64], h: i64, random: &mut Random) {
    let points = times.len();
    for _ in 0..random.pick(&[1, points, 3 * MOST_RULES]) {
        let (i, j) = (random.below(points), random.below(points));
        let least = if i == 0 { 0 } else { -h };
        rules.at_most(i, j, least - 1 - random.pick(&[0, 0, 1, h]));
    }
    let count = random.pick(&[0, 0, 3]);
    rules.list.truncate(MOST_RULES - count);
    kept(rules, times, count, 0, h, random);
}

fn mixed(rules: &mut Rules, times: &[i64], h: i64, random: &mut Random) {
    let others: Vec<i64> = times.iter().map(|&time| if time == 0 { 0 } else { random.between(0, h) }).collect();
    let room = random.pick(&[0, 1, h / 20]);
    for _ in 0..3 * MOST_RULES {
        let (i, j) = (random.below(times.len()), random.below(times.len()));
        let times = random.pick(&[times, &others[..]]);
        rules.at_most(i, j, times[j] - times[i] + random.between(0, room));
    }
}

fn limits(rules: &mut Rules, times: &[i64], h: i64, random: &mut Random) {
    for event in 1..times.len() {
        for _ in 0..random.below(4) {
            let time = random.pick(&[0, h, times[event]]) + random.between(-1, 1);
            if random.chance(50) {
                rules.at_most(0, event, time);
            } else {
                rules.at_most(event, 0, -time);
            }
        }
        let other = random.below(times.len());
        rules.at_most(event, other, random.pick(&[-h, 0, h]) + random.between(-1, 1));
    }
}

/// Words that stand in the text anyway, and the devices.
const WORDS: [&str; 8] = ["start", "at", "by", "camera", "wheel", "lamps", "stage", "database"];

/// Names of any letters and lengths, of one letter, of sixteen, all the same, or words.
fn names(count: usize, random: &mut Random) -> Vec<String> {
    let style = random.below(6);
    let name = |random: &mut Random| -> String {
        let length = match style {
            0 => 1,
            1 => 16,
            2 => return random.pick(&WORDS).to_string(),
            _ => random.pick(&[1, 2, 5, 9, 15, 16]),
        };
        let letters = [b'a', b'z', b'a' + random.below(26) as u8, b'a' + random.below(26) as u8];
        (0..length).map(|_| random.pick(&letters) as char).collect()
    };
    match style {
        3 => vec![name(random); count],
        _ => (0..count).map(|_| name(random)).collect(),
    }
}

/// This ticket with names for its events and for the devices.
pub fn asked(ticket: &Ticket, random: &mut Random) -> Asked {
    let roster =
        if random.chance(30) { WORDS[3..].iter().map(|w| w.to_string()).collect() } else { names(DEVICES, random) };
    Asked {
        ticket: writing::ticket(ticket),
        labels: writing::names(&names(ticket.events(), random)),
        roster: writing::names(&roster),
    }
}

/// Where the length bytes of a good list stand.
fn length_places(list: &[u8]) -> Vec<usize> {
    let mut places = Vec::new();
    let mut at = 2;
    while at < list.len() {
        places.push(at);
        at += 1 + list[at] as usize;
    }
    places
}

/// A good list with something wrong; sometimes it is still good, or good for another count.
pub fn damaged_list(good: &[u8], random: &mut Random) -> Vec<u8> {
    let mut list = good.to_vec();
    let places = length_places(good);
    match random.below(9) {
        0 => list.truncate(random.below(good.len())),
        1 => list.resize(good.len() + random.pick(&[1, 1, 2, 17, 5_000]), random.pick(&[0, 1, b'a'])),
        2 => list[0] = list[0].wrapping_add(random.pick(&[1, 255])),
        3 => list[1] = random.pick(&[1, 255]),
        _ if places.is_empty() => list = generate::damaged(good, random),
        4 => {
            let at = random.pick(&places);
            list[at] = random.pick(&[0, 17, 255, list[at] + 1, list[at] - 1]);
        }
        5 => {
            let at = random.pick(&places);
            list[at + 1 + random.below(good[at] as usize)] = random.pick(b"`{@[AZ 09-\n\0\x80\xff");
        }
        6 => {
            // A name of no letter or of 17, its length byte true.
            let at = random.pick(&places);
            let name = vec![b'z'; random.pick(&[0, 17])];
            list.splice(at..at + 1 + good[at] as usize, [&[name.len() as u8], &name[..]].concat());
        }
        7 => {
            // A name more or less, the count true or as it was.
            let at = random.pick(&places);
            let more = random.chance(50);
            let name = good[at..at + 1 + good[at] as usize].to_vec();
            let after = if more { [&name[..], &name].concat() } else { Vec::new() };
            list.splice(at..at + name.len(), after);
            if random.chance(50) {
                list[0] = list[0].wrapping_add(if more { 1 } else { 255 });
            }
        }
        _ => list = generate::damaged(good, random),
    }
    list
}
