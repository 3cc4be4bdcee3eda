//! A clause that is tried is told to the watch, and a refusal gets its number and place.

use super::clauses::{Clause, Verdict, Watch};
use super::reading::Reading;
use super::strength::at_least_as_strong;
use crate::data::{Answer, Fact, Pair, Time};

/// Tries clauses under the pairs of a case, in one reading, and somebody watches.
pub struct Trial<'a, R, W> {
    pairs: &'a [Pair],
    reading: &'a mut R,
    watch: &'a mut W,
}

impl<'a, R: Reading, W: Watch> Trial<'a, R, W> {
    /// A trial under these pairs, in this reading, for this watch.
    pub fn new(pairs: &'a [Pair], reading: &'a mut R, watch: &'a mut W) -> Trial<'a, R, W> {
        Trial {
            pairs,
            reading,
            watch,
        }
    }

    /// The walk has come to a step with this tag.
    pub fn step(&mut self, tag: u8) {
        self.watch.step(tag);
    }

    /// Goes on where something fits the step at this offset.
    pub fn fits(&mut self, clause: Clause, held: bool, offset: u64) -> Result<(), Answer> {
        self.settle(clause, held, Answer::refused(3, offset))
    }

    /// Goes on with what was found, where something was that fits the step at this offset.
    pub fn found<T>(&mut self, clause: Clause, found: Option<T>, offset: u64) -> Result<T, Answer> {
        self.watch.clause(clause, found.is_some());
        found.ok_or(Answer::refused(3, offset))
    }

    /// Whether a principal is at least as strong as another, which a clause asks.
    pub fn strong_enough(&mut self, clause: Clause, principal: u16, other: u16) -> bool {
        let held = at_least_as_strong(self.pairs, principal, other);
        self.watch
            .strength(clause, self.pairs, (principal, other), held);
        held
    }

    /// Goes on where the reading lets left be not after right.
    pub fn not_after(
        &mut self,
        clause: Clause,
        left: Time,
        right: Time,
        offset: u64,
    ) -> Result<(), Answer> {
        let verdict = self.reading.not_after(left, right);
        self.watch.order(clause, left, right, verdict);
        let held = verdict != Verdict::Fails;
        self.settle(clause, held, Answer::refused(4, offset))
    }

    /// Goes on where the reading takes the fact, which only the reading at a press can refuse.
    pub fn fact(&mut self, fact: Fact, offset: u64) -> Result<(), Answer> {
        let held = self.reading.meet(fact);
        self.settle(R::FACT_CLAUSE, held, Answer::refused(10, offset))
    }

    /// Goes on where a clause held, and refuses otherwise.
    fn settle(&mut self, clause: Clause, held: bool, refusal: Answer) -> Result<(), Answer> {
        self.watch.clause(clause, held);
        if held {
            Ok(())
        } else {
            Err(refusal)
        }
    }
}
