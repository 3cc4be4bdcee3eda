//! The state of the house at a press.

use super::bytes::Bytes;
use super::terms::{read_predicate, read_settled, term_at};
use crate::data::{Answer, Fact, LATEST};

/// How long a state can be.
const MOST_BYTES: usize = 4096;

/// The facts that stand.
pub struct State {
    facts: Vec<Fact>,
}

impl State {
    /// The state that these bytes spell, if they do.
    pub fn read(bytes: &[u8]) -> Option<State> {
        if bytes.len() > MOST_BYTES {
            return None;
        }
        let mut bytes = Bytes::of(bytes);
        let mut facts = Vec::new();
        while !bytes.ended() {
            let (predicate, terms) = read_predicate(&mut bytes, read_settled)?;
            facts.push(Fact { predicate, terms });
        }
        Some(State { facts })
    }

    /// The state at a moment, or that the moment is not the clock's or the bytes spell no state.
    pub fn at(moment: u64, bytes: &[u8]) -> Result<State, Answer> {
        if moment > LATEST {
            return Err(Answer::refused(11, 0));
        }
        State::read(bytes).ok_or(Answer::refused(7, 0))
    }

    /// Whether a fact stands here once its ctime is this moment.
    pub fn holds(&self, fact: &Fact, moment: u64) -> bool {
        self.facts
            .iter()
            .any(|standing| same_at(standing, fact, moment))
    }
}

/// Whether a standing fact is the wanted one with the moment for its ctime.
fn same_at(standing: &Fact, wanted: &Fact, moment: u64) -> bool {
    let there = standing.terms.iter().copied();
    let here = wanted.terms.iter().map(|term| term_at(*term, moment));
    standing.predicate == wanted.predicate && there.eq(here)
}
