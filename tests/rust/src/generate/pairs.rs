//! Lists of pairs: chains and rings, what can stand beside a chain, and the order in which it is all listed.

use super::Random;
use crate::data::Pair;

/// How many pairs can be lent.
pub const MOST: usize = 128;

/// How many pairs are more than can be lent: by one, by a few, and so that one byte for their number says none or few.
const TOO_MANY: [usize; 7] = [129, 129, 130, 192, 256, 257, 300];

/// The pair of a stronger and a weaker name.
fn pair(stronger: u16, weaker: u16) -> Pair {
    Pair { stronger, weaker }
}

/// The chain from the first name down to the last.
pub fn chain(names: &[u16]) -> Vec<Pair> {
    let links = names.windows(2);
    links.map(|two| pair(two[0], two[1])).collect()
}

/// The chain that leads back from the last name to the first.
pub fn ring(names: &[u16]) -> Vec<Pair> {
    let mut pairs = chain(names);
    pairs.push(pair(names[names.len() - 1], names[0]));
    pairs
}

/// Who stands above a name by a chain of as many pairs as can be lent, and the chain with its lowest pair first.
pub fn longest_chain(name: u16) -> (u16, Vec<Pair>) {
    let above = (1..=MOST as u16).rev().map(|step| name.wrapping_add(step));
    let names: Vec<u16> = above.chain([name]).collect();
    let mut pairs = chain(&names);
    pairs.reverse();
    (names[0], pairs)
}

/// So many names above a name, the highest first and the name itself last. None of the others is a small number.
pub fn line_above(random: &mut Random, name: u16, count: usize) -> Vec<u16> {
    let lowest = some_stranger(random);
    let above = (0..count as u16).rev().map(|step| lowest + step);
    above.chain([name]).collect()
}

/// How many pairs a chain has: mostly one, two or a few, seldom as many as can be lent or nearly so.
pub fn some_length(random: &mut Random) -> usize {
    match random.below(24) {
        0..=6 => 1,
        7..=12 => 2,
        13..=20 => 3 + random.below(6) as usize,
        21 => 9 + random.below(92) as usize,
        22 => 101 + random.below(28) as usize,
        _ => *random.pick(&[127, 128]),
    }
}

/// A name that is no small number, with room for many above it.
fn some_stranger(random: &mut Random) -> u16 {
    20_000 + random.below(40_000) as u16
}

/// One or two pairs beside a chain that lead from none of its names to a lower one.
fn harmless(random: &mut Random, names: &[u16]) -> Vec<Pair> {
    let (stranger, place) = (some_stranger(random), random.below(names.len() as u64));
    let name = names[place as usize];
    let higher = names[random.below(place + 1) as usize];
    match random.below(7) {
        0 => vec![pair(name, name)],
        1..=2 => vec![pair(name, higher)],
        3 => vec![pair(name, stranger)],
        4 => vec![pair(stranger, name)],
        5 => vec![pair(name, stranger), pair(stranger, name)],
        _ => vec![pair(stranger, some_stranger(random))],
    }
}

/// One or two pairs that lead from one name of a chain to a lower one: there already, a shorter way, or another way.
fn other_way(random: &mut Random, names: &[u16]) -> Vec<Pair> {
    let place = random.below(names.len() as u64 - 1) as usize;
    let below = random.below((names.len() - 1 - place) as u64) as usize;
    let (name, lower) = (names[place], names[place + 1 + below]);
    let stranger = some_stranger(random);
    match random.below(3) {
        0 => vec![pair(name, names[place + 1])],
        1 => vec![pair(name, lower)],
        _ => vec![pair(name, stranger), pair(stranger, lower)],
    }
}

/// Adds pairs that lead nowhere further down these names, a few or seldom as many as can be lent.
pub fn add_harmless(random: &mut Random, names: &[u16], pairs: &mut Vec<Pair>) {
    let room = MOST.saturating_sub(pairs.len());
    let count = match random.below(24) {
        0 => room,
        1..=9 => 0,
        _ => random.below(5) as usize,
    };
    let mut others = Vec::new();
    while others.len() < count.min(room) {
        others.extend(harmless(random, names));
    }
    others.truncate(count.min(room));
    pairs.extend(others);
}

/// Pairs that lead down these names, with others beside them, in some order.
pub fn leading_down(random: &mut Random, names: &[u16]) -> Vec<Pair> {
    let mut pairs = chain(names);
    if pairs.len() + 6 <= MOST {
        for _ in 0..random.below(4).saturating_sub(1) {
            pairs.extend(other_way(random, names));
        }
    }
    add_harmless(random, names, &mut pairs);
    listed(random, &mut pairs);
    pairs
}

/// Puts pairs into an order: as they are, any, or the other way round, so that whoever goes over the list from its
/// front again and again finds no more than one step further down a chain each time.
pub fn listed(random: &mut Random, pairs: &mut [Pair]) {
    match random.below(3) {
        0 => {}
        1 => pairs.reverse(),
        _ => {
            for place in (1..pairs.len()).rev() {
                pairs.swap(place, random.below(place as u64 + 1) as usize);
            }
        }
    }
}

/// Repeats pairs until they are too many.
pub fn too_many(random: &mut Random, pairs: &mut Vec<Pair>) {
    if pairs.is_empty() {
        pairs.push(pair(random.below(3) as u16, random.below(3) as u16));
    }
    let (own, count) = (pairs.len(), *random.pick(&TOO_MANY));
    while pairs.len() < count {
        pairs.push(pairs[pairs.len() % own]);
    }
}

/// Puts a pair at the end that can be spelled in one byte, where there is room for it.
pub fn end_on_zeros(pairs: &mut Vec<Pair>) {
    if pairs.len() < MOST {
        pairs.push(pair(0, 0));
    }
}

/// Pairs about some names, at most as many as can be lent: chains that end on one of them, or from one to another.
pub fn some_pairs(random: &mut Random, names: &[u16]) -> Vec<Pair> {
    let mut pairs = Vec::new();
    for _ in 0..=random.below(3) {
        let length = match random.one_in(4) {
            true => some_length(random),
            false => 1 + random.below(3) as usize,
        };
        let lowest = *random.pick(names);
        let mut line = line_above(random, lowest, length);
        if random.one_in(2) {
            line[0] = *random.pick(names);
        }
        pairs.extend(leading_down(random, &line));
    }
    pairs.truncate(MOST);
    pairs
}
