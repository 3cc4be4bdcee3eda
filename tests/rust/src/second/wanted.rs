//! What a case would ask of the state at a press.

use super::clauses::{Clause, NoWatch, Verdict};
use super::judging::walk;
use super::reading::{Press, Reading};
use super::state::State;
use super::terms::term_at;
use super::verify::read_case;
use crate::data::{Answer, Case, Fact, Time};

/// The reading at a press of somebody who grants every fact and writes it down.
struct Granting {
    press: Press,
    facts: Vec<Fact>,
}

impl Reading for Granting {
    const FACT_CLAUSE: Clause = Press::FACT_CLAUSE;

    /// Decides it at the press.
    fn not_after(&mut self, left: Time, right: Time) -> Verdict {
        self.press.not_after(left, right)
    }

    /// Grants the fact.
    fn meet(&mut self, fact: Fact) -> bool {
        let moment = self.press.moment;
        let terms = fact.terms.iter().map(|term| term_at(*term, moment));
        let settled = Fact {
            predicate: fact.predicate,
            terms: terms.collect(),
        };
        if !self.facts.contains(&settled) {
            self.facts.push(settled);
        }
        true
    }
}

/// The facts that the walk of a case asks for at a moment of the clock, up to its first fault, when each is granted.
pub fn facts_wanted(case: &Case, moment: u64) -> Vec<Fact> {
    let mut facts = Vec::new();
    // What the walk came to is for the direct check to tell.
    let _ = grant_all(case, moment, &mut facts);
    facts
}

/// Walks a case at a moment and writes down the facts that it asks for.
fn grant_all(case: &Case, moment: u64, facts: &mut Vec<Fact>) -> Result<(), Answer> {
    let (certificates, proof) = read_case(case, &mut NoWatch)?;
    let state = State::at(moment, &[])?;
    let mut granting = Granting {
        press: Press { moment, state },
        facts: Vec::new(),
    };
    let walked = walk(case, &certificates, &proof, &mut granting, &mut NoWatch);
    *facts = granting.facts;
    walked
}
