//! The state in which a procap opens.

use crate::states::fact_at;
use crate::wire::state_in_bytes;
use second_opinion::data::{Fact, Procap};

/// The bytes of a state with all facts of a procap, at its first moment.
pub fn opening_state(procap: &Procap) -> Vec<u8> {
    let facts = procap.facts.iter();
    let wanted: Vec<Fact> = facts.map(|fact| fact_at(fact, procap.from)).collect();
    state_in_bytes(&wanted)
}
