//! Which principal is at least as strong as which, by a list of pairs.

use crate::data::{Answer, Pair};

/// How many pairs a case has at most.
const MOST_PAIRS: usize = 128;

/// Goes on where the pairs are not too many, whatever they say.
pub fn few_enough(pairs: &[Pair]) -> Result<(), Answer> {
    match pairs.len() {
        0..=MOST_PAIRS => Ok(()),
        _ => Err(Answer::refused(21, 0)),
    }
}

/// Whether a principal is another, or stands above it by a chain of pairs.
pub fn at_least_as_strong(pairs: &[Pair], principal: u16, other: u16) -> bool {
    principal == other || all_below(pairs, principal).contains(&other)
}

/// A principal, and after it everybody that a chain of pairs leads to from it. Nobody is listed twice, so that the list
/// comes to an end, with at most one principal more than there are pairs.
fn all_below(pairs: &[Pair], principal: u16) -> Vec<u16> {
    let mut listed = vec![principal];
    let mut done = 0;
    while let Some(stronger) = listed.get(done).copied() {
        for pair in pairs {
            if pair.stronger == stronger && !listed.contains(&pair.weaker) {
                listed.push(pair.weaker);
            }
        }
        done += 1;
    }
    listed
}
