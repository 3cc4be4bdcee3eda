//! Small cases about strength: words are used in a view of a principal by one who stands above it, or does not quite.

use super::damage::another_name;
use super::damage_pairs::turn;
use super::pairs::{
    add_harmless, chain, end_on_zeros, leading_down, line_above, listed, ring, some_length,
    too_many,
};
use super::stand_ins_compared::compared;
use super::stand_ins_often::some_often;
use super::views::Use;
use super::Random;
use crate::data::{Case, Pair};

/// A case where somebody's words are used, as they may be, in the view of one below; seldom again and again.
pub fn by_a_stand_in(random: &mut Random) -> Case {
    if random.one_in(12) {
        return some_often(random);
    }
    let (mut used, names) = some_use(random);
    used.pairs = leading_down(random, &names);
    if random.one_in(8) {
        end_on_zeros(&mut used.pairs);
    }
    used.case(random)
}

/// A case where somebody's words are used in a view, and mostly as they may not be: not by one who stands above, or not
/// on all of the view's span, or with too many pairs.
pub fn about_stand_ins(random: &mut Random) -> Case {
    let (mut used, names) = some_use(random);
    if random.one_in(8) {
        return compared(random, used.viewer, &names);
    }
    let mut pairs = chain(&names);
    match random.below(10) {
        0..=4 => not_quite(random, &names, &mut pairs),
        5 => used.speaker = another_name(random, used.viewer),
        6..=8 => used.move_words(random),
        _ => {}
    }
    add_harmless(random, &names, &mut pairs);
    listed(random, &mut pairs);
    match random.below(12) {
        0..=1 => too_many(random, &mut pairs),
        2 => end_on_zeros(&mut pairs),
        _ => {}
    }
    used.pairs = pairs;
    used.case(random)
}

/// Words used in the view of the last of some names, by the first of them.
fn some_use(random: &mut Random) -> (Use, Vec<u16>) {
    let mut used = Use::some(random);
    if random.one_in(6) {
        used.viewer = 0;
    }
    let length = some_length(random);
    let names = line_above(random, used.viewer, length);
    used.speaker = names[0];
    (used, names)
}

/// Changes the chain down these names so that it leads from the first no longer to the last.
fn not_quite(random: &mut Random, names: &[u16], pairs: &mut Vec<Pair>) {
    let place = random.below(pairs.len() as u64) as usize;
    match random.below(6) {
        0 => pairs.iter_mut().for_each(turn),
        1..=2 => turn(&mut pairs[place]),
        3..=4 => {
            pairs.remove(place);
        }
        _ => *pairs = ring(&names[..names.len() - 1]),
    }
}
