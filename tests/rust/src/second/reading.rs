//! The two ways to read a proof: at the office, before any press, and at a press.

use super::clauses::{Clause, Verdict};
use super::state::State;
use super::times::{order, Order};
use crate::data::{Fact, Procap, Request, Time, LATEST};

/// How a walk reads the order of times and the facts of the state.
pub trait Reading {
    /// Which clause a fact that is met has to pass.
    const FACT_CLAUSE: Clause;

    /// How it comes out that left is to be not after right.
    fn not_after(&mut self, left: Time, right: Time) -> Verdict;

    /// Whether a walk may go on after wanting this fact.
    fn meet(&mut self, fact: Fact) -> bool;
}

/// The office's reading: it gathers when the press must be, and what must hold then.
pub struct Office {
    from: u64,
    to: u64,
    facts: Vec<Fact>,
}

impl Office {
    /// The whole clock, and no facts.
    pub fn new() -> Office {
        Office {
            from: 0,
            to: LATEST,
            facts: Vec::new(),
        }
    }

    /// Whether there is a moment that everything gathered allows.
    pub fn moment_left(&self) -> bool {
        self.from <= self.to
    }

    /// The procap for a request with what was gathered.
    pub fn procap(self, request: Request) -> Procap {
        Procap {
            request,
            from: self.from,
            to: self.to,
            facts: self.facts,
        }
    }
}

impl Reading for Office {
    const FACT_CLAUSE: Clause = Clause::FactListed;

    /// Decides what needs no press, and gathers what the press decides.
    fn not_after(&mut self, left: Time, right: Time) -> Verdict {
        match order(left, right) {
            Order::Decided(held) => Verdict::decided(held),
            Order::From(moment) => {
                self.from = self.from.max(moment);
                Verdict::RaisesFrom
            }
            Order::UpTo(moment) => {
                self.to = self.to.min(moment);
                Verdict::LowersTo
            }
        }
    }

    /// Lists the fact once, and refuses none: a proof has too few steps of the state for a 17th, so the number 6 is
    /// withdrawn and left unused.
    fn meet(&mut self, fact: Fact) -> bool {
        if !self.facts.contains(&fact) {
            self.facts.push(fact);
        }
        true
    }
}

/// The reading at a press: its moment is known, and so is the state.
pub struct Press {
    pub moment: u64,
    pub state: State,
}

impl Reading for Press {
    const FACT_CLAUSE: Clause = Clause::FactStands;

    /// Decides it with the moment for ctime.
    fn not_after(&mut self, left: Time, right: Time) -> Verdict {
        Verdict::decided(match order(left, right) {
            Order::Decided(held) => held,
            Order::From(moment) => moment <= self.moment,
            Order::UpTo(moment) => self.moment <= moment,
        })
    }

    /// Whether the fact stands with the moment for ctime.
    fn meet(&mut self, fact: Fact) -> bool {
        self.state.holds(&fact, self.moment)
    }
}
