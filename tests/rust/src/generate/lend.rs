//! Pairs that no proof was made for.

use super::pairs::{some_pairs, too_many};
use super::Random;
use crate::data::{Case, Pair};

/// The case, now and then with pairs about its principals or with too many.
pub fn perhaps_lending(random: &mut Random, mut case: Case) -> Case {
    if !random.one_in(4) {
        return case;
    }
    let mut names = vec![case.request.who, 1];
    names.extend(case.records.iter().map(|record| record.principal));
    case.pairs = some_pairs(random, &names);
    if random.one_in(4) {
        too_many(random, &mut case.pairs);
    }
    case
}

/// Pairs of small names: mostly none or a few, seldom about as many as can be lent.
pub fn raw_pairs(random: &mut Random) -> Vec<Pair> {
    let count = match random.below(16) {
        0..=7 => 0,
        8 => 126 + random.below(6),
        9 => random.below(300),
        _ => 1 + random.below(5),
    };
    let mut name = || random.below(4) as u16;
    let pairs = (0..count).map(|_| Pair {
        stronger: name(),
        weaker: name(),
    });
    pairs.collect()
}
