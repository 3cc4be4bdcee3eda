//! The tags of terms, formulas and proof steps.

use super::Random;
use std::ops::RangeInclusive;

pub const NAME: u8 = 0x00;
pub const MOMENT: u8 = 0x01;
pub const MINUS_INFINITY: u8 = 0x02;
pub const PLUS_INFINITY: u8 = 0x03;
pub const CTIME: u8 = 0x04;
pub const BOUND: u8 = 0x05;

pub const TOP: u8 = 0x10;
pub const BOTH: u8 = 0x11;
pub const IMPLIES: u8 = 0x12;
pub const ALL_NAMES: u8 = 0x13;
pub const ALL_TIMES: u8 = 0x14;
pub const SAYS: u8 = 0x15;
pub const AT: u8 = 0x16;
pub const ATOM: u8 = 0x17;
pub const FACT: u8 = 0x18;
pub const ORDER: u8 = 0x19;
pub const EITHER: u8 = 0x1a;
pub const FALSITY: u8 = 0x1b;

pub const LOCAL: u8 = 0x20;
pub const CERTIFICATE: u8 = 0x21;
pub const PAIR: u8 = 0x22;
pub const FIRST: u8 = 0x23;
pub const SECOND: u8 = 0x24;
pub const TRIVIAL: u8 = 0x25;
pub const APPLY: u8 = 0x26;
pub const INSTANCE: u8 = 0x27;
pub const AT_IN: u8 = 0x28;
pub const AT_OUT: u8 = 0x29;
pub const SAYS_IN: u8 = 0x2a;
pub const SAYS_OUT: u8 = 0x2b;
pub const STATE: u8 = 0x2c;
pub const COMPARE: u8 = 0x2d;
pub const LEFT: u8 = 0x2e;
pub const RIGHT: u8 = 0x2f;
pub const CASES: u8 = 0x30;
pub const BY_FALSITY: u8 = 0x31;

/// The tags of all formulas, and of all steps, to draw from: each stands in a row. What must have come up is said elsewhere, in numbers.
pub const FORMULAS: RangeInclusive<u8> = TOP..=FALSITY;
pub const STEPS: RangeInclusive<u8> = LOCAL..=BY_FALSITY;

/// One of these tags.
pub fn any_of(tags: RangeInclusive<u8>, random: &mut Random) -> u8 {
    tags.start() + random.below(tags.len() as u64) as u8
}

/// One of these tags, or the first that is none of them.
pub fn any_or_none_of(tags: RangeInclusive<u8>, random: &mut Random) -> u8 {
    any_of(*tags.start()..=tags.end() + 1, random)
}
