//! Moments to press at.

use second_opinion::data::{Case, Procap, LATEST};
use second_opinion::generate::Random;
use second_opinion::second;

/// The moments worth trying with any case.
const ALWAYS: [u64; 6] = [0, 1, LATEST - 1, LATEST, LATEST + 1, u64::MAX];

/// Every moment that a case or its procap mentions, with its neighbours, and those worth trying always.
pub fn all_moments(case: &Case, procap: Option<&Procap>) -> Vec<u64> {
    let mut mentioned = second::moments_of(case);
    mentioned.extend(procap.iter().flat_map(|procap| [procap.from, procap.to]));
    let mut moments = ALWAYS.to_vec();
    for moment in mentioned {
        moments.extend([moment.saturating_sub(1), moment, moment.saturating_add(1)]);
    }
    moments.sort_unstable();
    moments.dedup();
    moments
}

/// At most so many of the candidates, the edges among them more often than others.
pub fn some_moments(
    random: &mut Random,
    candidates: &[u64],
    edges: &[u64],
    most: usize,
) -> Vec<u64> {
    if candidates.len() <= most {
        return candidates.to_vec();
    }
    let mut moments = Vec::with_capacity(most);
    for edge in edges {
        if !random.one_in(3) {
            moments.push(*edge);
        }
    }
    while moments.len() < most {
        moments.push(*random.pick(candidates));
    }
    moments.sort_unstable();
    moments.dedup();
    moments
}
