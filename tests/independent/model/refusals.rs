//! Document 01's refusal numbers, under the paper's names, and a refusal with its place.

pub const SHORT: u64 = 1;
pub const NUMBER: u64 = 2;
pub const COUNT: u64 = 3;
pub const KIND: u64 = 4;
pub const TAIL: u64 = 5;
pub const FIELD: u64 = 6;
pub const LINK: u64 = 7;
pub const MEMORY: u64 = 8;
pub const MANAGED_TWICE: u64 = 9;
pub const PORT: u64 = 10;
pub const OVERLAP: u64 = 11;
pub const RUNS: u64 = 12;
pub const SETUP: u64 = 13;
pub const SIZE: u64 = 14;
pub const PIN: u64 = 15;
pub const BAD_QUEUE: u64 = 16;
pub const RING: u64 = 17;
pub const AHEAD: u64 = 18;
pub const HEAD: u64 = 19;
pub const CHAIN: u64 = 20;
pub const REACH: u64 = 21;
pub const SHAPE: u64 = 22;
pub const WIDTH: u64 = 23;
pub const HOLE: u64 = 24;
pub const SPLIT: u64 = 25;
pub const UNPLUGGED: u64 = 26;
pub const RECORD: u64 = 27;

/// The last refusal number there is.
pub const LAST_REFUSAL: u64 = RECORD;
/// The numbers that a step stops a queue with.
pub const STOPS: std::ops::RangeInclusive<u64> = RING..=SHAPE;

/// A refusal: its number, and its place (a byte place and 0, or two nodes, or zeros).
#[derive(Clone, Copy, PartialEq, Eq, Debug)]
pub struct Refusal {
    pub number: u64,
    pub place: (u64, u64),
}

pub fn refuse<T>(number: u64, first: u64, second: u64) -> Result<T, Refusal> {
    Err(Refusal { number, place: (first, second) })
}
