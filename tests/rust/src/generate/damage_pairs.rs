//! One small damage to a list of pairs.

use super::damage::another_name;
use super::Random;
use crate::data::Pair;

/// Damages a list of pairs that has some.
pub fn damage_pairs(random: &mut Random, pairs: &mut Vec<Pair>) {
    let count = pairs.len() as u64;
    let [one, other] = [(); 2].map(|_| random.below(count) as usize);
    match random.below(13) {
        0..=3 => {
            pairs.remove(one);
        }
        4..=6 => turn(&mut pairs[one]),
        7 => pairs[one].stronger = another_name(random, pairs[one].stronger),
        8 => pairs[one].weaker = another_name(random, pairs[one].weaker),
        9 => pairs.swap(one, other),
        10 => pairs[other] = pairs[one],
        11 => pairs.iter_mut().for_each(turn),
        _ => repeat(random, pairs),
    }
}

/// Lets the weaker of a pair be the stronger.
pub fn turn(pair: &mut Pair) {
    std::mem::swap(&mut pair.stronger, &mut pair.weaker);
}

/// Repeats a pair, once or until there are about as many as can be lent.
fn repeat(random: &mut Random, pairs: &mut Vec<Pair>) {
    let again = *random.pick(pairs);
    pairs.push(again);
    let wanted = *random.pick(&[0, 127, 128, 129, 130]);
    while pairs.len() < wanted {
        pairs.push(again);
    }
}
