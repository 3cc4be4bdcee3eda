//! Which case belongs to a seed and an index, and the random numbers for its questions.

use second_opinion::data::Case;
use second_opinion::generate::{
    about_an_or, about_stand_ins, at_a_limit, damaged, in_a_view, perhaps_lending, raw, valid,
    valid_by_strength, Random,
};

/// What the random numbers are for.
#[derive(Clone, Copy)]
pub enum Use {
    Making = 1,
    Asking = 2,
}

/// The random numbers for one use of one index under one seed.
pub fn random_for(seed: u64, index: u64, used: Use) -> Random {
    let mut state = Random::new(seed).next();
    for number in [index, used as u64] {
        state = Random::new(state ^ Random::new(number).next()).next();
    }
    Random::new(state)
}

/// The case of an index under a seed.
pub fn case_for(seed: u64, index: u64) -> Case {
    let mut random = random_for(seed, index, Use::Making);
    match random.below(22) {
        0..=5 => shown(&mut random),
        6..=13 => {
            let case = shown(&mut random);
            damaged(&mut random, &case)
        }
        14..=16 => {
            let case = on_purpose(&mut random);
            perhaps_lending(&mut random, case)
        }
        17 => about_stand_ins(&mut random),
        18 => {
            let case = about_stand_ins(&mut random);
            damaged(&mut random, &case)
        }
        _ => raw(&mut random),
    }
}

/// A case whose proof shows its request, some of them by strength.
fn shown(random: &mut Random) -> Case {
    match random.one_in(3) {
        true => valid_by_strength(random),
        false => valid(random),
    }
}

/// A case made on purpose, about a view, a limit or an or.
fn on_purpose(random: &mut Random) -> Case {
    match random.below(9) {
        0..=1 => in_a_view(random),
        2..=5 => at_a_limit(random),
        _ => about_an_or(random),
    }
}
