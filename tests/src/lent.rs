//! Memory lent to a call: a slice that stands between two margins, all filled with a pattern first, so that
//! a write outside the slice or past the written part shows.

use crate::random::Random;

/// Elements before and after the slice that nobody may touch.
const MARGIN: usize = 24;

pub struct Lent<T> {
    before: Vec<T>,
    now: Vec<T>,
    length: usize,
}

/// Elements a pattern can be made of.
pub trait Element: Copy + PartialEq {
    fn of(bits: u64) -> Self;
}

impl Element for u8 {
    fn of(bits: u64) -> u8 {
        bits as u8
    }
}

impl Element for u32 {
    fn of(bits: u64) -> u32 {
        bits as u32
    }
}

impl Element for i32 {
    fn of(bits: u64) -> i32 {
        bits as i32
    }
}

/// What lent memory holds before a call.
#[derive(Clone, Copy, Debug, PartialEq, Eq)]
pub enum Pattern {
    Random,
    AllSet,
    AllClear,
}

pub const PATTERNS: [Pattern; 3] = [Pattern::Random, Pattern::AllSet, Pattern::AllClear];

impl Pattern {
    /// Every other one is random.
    pub fn drawn(random: &mut Random) -> Pattern {
        match random.below(4) {
            0 => Pattern::AllSet,
            1 => Pattern::AllClear,
            _ => Pattern::Random,
        }
    }
}

impl<T: Element> Lent<T> {
    /// A slice of `length` elements in this pattern.
    pub fn new(length: usize, pattern: Pattern, random: &mut Random) -> Lent<T> {
        let mut start = random.next();
        let mut element = || {
            start = start.wrapping_mul(6_364_136_223_846_793_005).wrapping_add(1_442_695_040_888_963_407);
            T::of(match pattern {
                Pattern::Random => start >> 24,
                Pattern::AllSet => u64::MAX,
                Pattern::AllClear => 0,
            })
        };
        let before: Vec<T> = (0..length + 2 * MARGIN).map(|_| element()).collect();
        Lent { now: before.clone(), before, length }
    }

    pub fn slice(&mut self) -> &mut [T] {
        &mut self.now[MARGIN..MARGIN + self.length]
    }

    /// The first `count` elements, at most as many as there are.
    pub fn first(&self, count: usize) -> &[T] {
        &self.now[MARGIN..MARGIN + count.min(self.length)]
    }

    /// Whether all but the first `count` elements, and the margins, are as they were.
    pub fn untouched_after(&self, count: usize) -> bool {
        let written = MARGIN..MARGIN + count.min(self.length);
        self.now[..written.start] == self.before[..written.start]
            && self.now[written.end..] == self.before[written.end..]
    }
}
