//! The direct check: a case at a known moment, in a known state.

use super::clauses::Watch;
use super::judging::walk;
use super::reading::Press;
use super::state::State;
use super::verify::read_case;
use crate::data::{Answer, Case};

/// Accepts a case whose proof holds at a moment in a state, or says why not.
pub fn direct<W: Watch>(
    case: &Case,
    moment: u64,
    state: &[u8],
    watch: &mut W,
) -> Result<(), Answer> {
    let (certificates, proof) = read_case(case, watch)?;
    let state = State::at(moment, state)?;
    let mut press = Press { moment, state };
    walk(case, &certificates, &proof, &mut press, watch)
}
