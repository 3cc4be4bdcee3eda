//! The two formulas that say nothing of anything.

use super::formula::Formula;
use super::Random;

/// Top or, once in so many times, falsity.
pub fn some_constant(random: &mut Random, falsity_one_in: u64) -> Formula {
    match random.one_in(falsity_one_in) {
        true => Formula::falsity(),
        false => Formula::top(),
    }
}
