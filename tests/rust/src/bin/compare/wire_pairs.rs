//! Pairs in bytes, the last of which may be there in part.

use second_opinion::data::Pair;
use second_opinion::generate::Random;

/// How many bytes a pair has: two for the stronger, then two for the weaker.
pub const PAIR_BYTES: usize = 4;

/// The bytes of a list of pairs.
pub fn pairs_in_bytes(pairs: &[Pair]) -> Vec<u8> {
    let mut bytes = Vec::with_capacity(pairs.len() * PAIR_BYTES);
    for pair in pairs {
        bytes.extend(pair.stronger.to_be_bytes());
        bytes.extend(pair.weaker.to_be_bytes());
    }
    bytes
}

/// The pairs that these bytes hold. One that is not complete counts too.
pub fn pairs_from_bytes(bytes: &[u8]) -> Vec<Pair> {
    let pairs = bytes.chunks(PAIR_BYTES);
    let pairs = pairs.map(|pair| Pair {
        stronger: name_at(pair, 0),
        weaker: name_at(pair, 2),
    });
    pairs.collect()
}

/// The name in two bytes from a place on, which is 0 where not both of them are there.
fn name_at(bytes: &[u8], place: usize) -> u16 {
    match bytes.get(place..place + 2) {
        Some(&[high, low]) => u16::from_be_bytes([high, low]),
        _ => 0,
    }
}

/// Leaves out bytes at the end of a list of pairs, where it still holds the same pairs without them; a byte that then
/// says nothing may be any.
pub fn cut_short(random: &mut Random, bytes: &mut Vec<u8>) {
    let whole = pairs_from_bytes(bytes);
    let mut short = bytes.clone();
    short.truncate(bytes.len().saturating_sub(1 + random.below(3) as usize));
    if short.len() % 2 == 1 {
        short.pop();
        short.push(random.next() as u8);
    }
    if pairs_from_bytes(&short) == whole {
        *bytes = short;
    }
}
