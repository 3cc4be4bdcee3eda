//! The office that writes a policy and a proof together, with what it keeps at hand while it does.

use super::clock::{Clock, Span};
use super::formula::Formula;
use super::goal::Goal;
use super::step::Step;
use super::word::Word;
use super::Random;
use crate::data::{Pair, Request, Time};

/// A certificate of the policy.
#[derive(Clone, Debug)]
pub struct Certificate {
    pub principal: u16,
    pub span: Span,
    pub formula: Formula,
}

/// An assumption around the place in work; a claim has its principal. A hidden one cannot be used there.
#[derive(Clone, Debug)]
pub struct Assumption {
    pub formula: Formula,
    pub span: Span,
    pub claimed_by: Option<u16>,
    pub hidden: bool,
}

/// How the office likes to work on one case.
#[derive(Clone, Copy, Debug)]
pub struct Habits {
    /// About how many steps it spends before it looks for the shortest end.
    pub steps: i64,
    /// Of eight wanted formulas, how many repeat an earlier one.
    pub repeats: u64,
    /// Of eight inferences, how many use what is at hand.
    pub reuses: u64,
    /// Out of so many goals, one is wrapped in an assumption.
    pub wraps: u64,
    /// At most so many eliminations around one new certificate.
    pub moves: u64,
    /// Of eight new certificates, how many are for all time.
    pub always: u64,
    /// Of sixteen wanted formulas, how many are state facts.
    pub facts: u64,
    /// Of sixteen wanted formulas, how many are conjunctions.
    pub pairs: u64,
    /// Of sixteen wanted formulas, how many are what somebody says at some time.
    pub views: u64,
    /// How many levels the wanted formulas have beyond one, at most.
    pub breadth: u64,
}

/// The office at work on one case.
pub struct Office<'a> {
    pub random: &'a mut Random,
    pub clock: Clock,
    pub names: Vec<u16>,
    pub predicates: Vec<u16>,
    pub policy: Vec<Certificate>,
    pub pairs: Vec<Pair>,
    pub goals: Vec<Formula>,
    pub scope: Vec<Assumption>,
    pub habits: Habits,
    pub facts_left: usize,
    pub shown: Vec<(Goal, Step)>,
}

/// A few names, the remarkable ones among them now and then.
fn some_names(random: &mut Random) -> Vec<u16> {
    let mut names = vec![1, 2, 7];
    for _ in 0..random.below(4) {
        names.push(match random.below(5) {
            0 => 0,
            1 => 65_535,
            2 => random.next() as u16,
            _ => random.below(10) as u16,
        });
    }
    names
}

/// A few predicates.
fn some_predicates(random: &mut Random) -> Vec<u16> {
    let mut predicates = vec![100, 200, 201];
    for _ in 0..random.below(4) {
        predicates.push(match random.below(4) {
            0 => 0,
            1 => 65_535,
            2 => random.next() as u16,
            _ => 99 + random.below(3) as u16,
        });
    }
    predicates
}

impl<'a> Office<'a> {
    /// The office before it starts.
    pub fn new(random: &'a mut Random, habits: Habits) -> Office<'a> {
        Office {
            clock: Clock::new(random),
            names: some_names(random),
            predicates: some_predicates(random),
            policy: Vec::new(),
            pairs: Vec::new(),
            goals: Vec::new(),
            scope: Vec::new(),
            facts_left: 16,
            shown: Vec::new(),
            random,
            habits,
        }
    }

    /// A name of the case.
    pub fn name(&mut self) -> u16 {
        *self.random.pick(&self.names)
    }

    /// A predicate of the case.
    pub fn predicate(&mut self) -> u16 {
        *self.random.pick(&self.predicates)
    }

    /// A time of the case.
    pub fn time(&mut self) -> Time {
        self.clock.any(self.random, 2)
    }

    /// A span between times of the case.
    pub fn some_span(&mut self) -> Span {
        self.clock.any_span(self.random)
    }

    /// A name or a time of the case.
    pub fn word(&mut self) -> Word {
        if self.random.below(5) < 3 {
            Word::name(self.name())
        } else {
            Word::when(self.time())
        }
    }

    /// A request about names of the case.
    pub fn request(&mut self) -> Request {
        Request {
            who: self.name(),
            what: self.name(),
            right: self.name(),
        }
    }

    /// The formula with some of its times spelled another way, the same at the press.
    pub fn respelled(&mut self, formula: &Formula) -> Formula {
        let (clock, random) = (&self.clock, &mut *self.random);
        formula.changed(&mut |word, _| match word.time() {
            Some(time) => Word::when(clock.respelled(random, time)),
            None => word,
        })
    }
}
