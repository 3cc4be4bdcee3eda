//! Small cases where something like an or is inferred, and compared with an or.

use super::clock::Clock;
use super::either::{atom, Split};
use super::formula::Formula;
use super::tags;
use super::word::Word;
use super::Random;
use crate::data::Case;

/// A case whose goal is an or, and where the same or one much like it is inferred.
pub fn compared(random: &mut Random, mut split: Split) -> Case {
    let sides = [(); 2].map(|_| some_side(random, &split.clock));
    let [left, right] = sides.clone();
    split.goal = Formula::either(left, right);
    let alike = much_like(random, &split.clock, sides);
    split.case(random, alike, split.at_once())
}

/// A side of one level: about a time, or about none.
fn some_side(random: &mut Random, clock: &Clock) -> Formula {
    match random.below(6) {
        0..=2 => Formula::atom(300, vec![Word::when(clock.any(random, 0))]),
        3 => atom(random.below(2) as u16),
        4 => Formula::falsity(),
        _ => Formula::top(),
    }
}

/// An or with one or both of these sides, perhaps turned round; seldom a conjunction, an implication or one side alone.
fn much_like(random: &mut Random, clock: &Clock, mut sides: [Formula; 2]) -> Formula {
    for side in &mut sides {
        if random.one_in(2) {
            *side = some_side(random, clock);
        }
    }
    if random.one_in(3) {
        sides.reverse();
    }
    let [left, right] = sides;
    if random.one_in(8) {
        return left;
    }
    let mut formula = Formula::either(left, right);
    if random.one_in(8) {
        formula.tag = *random.pick(&[tags::BOTH, tags::IMPLIES]);
    }
    formula
}
