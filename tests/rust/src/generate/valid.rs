//! Cases whose proof shows the request: the office at work from the goal backwards.

use super::clock::Span;
use super::either::by_an_or;
use super::formula::Formula;
use super::goal::{Goal, View};
use super::layout::case_of;
use super::office::{Habits, Office};
use super::pairs::some_pairs;
use super::stand_ins::by_a_stand_in;
use super::tags;
use super::views::well_used;
use super::word::Word;
use super::Random;
use crate::data::{Case, Pair, Request};

/// Which pairs are lent, about these names.
type Lending = fn(&mut Random, &[u16]) -> Vec<Pair>;

/// The administrator's name.
pub const ADMINISTRATOR: u16 = 1;

/// The predicate "may".
pub const MAY: u16 = 100;

/// The formula that the administrator must say for a request.
pub fn may(request: Request) -> Formula {
    let words = [request.who, request.what, request.right];
    Formula::atom(MAY, words.into_iter().map(Word::name).collect())
}

/// A case whose proof shows its request, within all limits and with no pair.
pub fn valid(random: &mut Random) -> Case {
    match random.below(16) {
        0 => return well_used(random),
        1 => return by_an_or(random),
        _ => {}
    }
    made(random, |_, _| Vec::new())
}

/// A case whose proof shows its request, within all limits, mostly by words of some who stand above others.
pub fn valid_by_strength(random: &mut Random) -> Case {
    match random.one_in(3) {
        true => by_a_stand_in(random),
        false => made(random, some_pairs),
    }
}

/// A case that the office makes, with such pairs about its names.
fn made(random: &mut Random, pairs: Lending) -> Case {
    for _ in 0..20 {
        let habits = some_habits(random);
        if let Some(case) = attempt(random, habits, pairs) {
            return case;
        }
    }
    loop {
        let steps = random.below(3) as i64;
        if let Some(case) = attempt(random, small(steps), pairs) {
            return case;
        }
    }
}

/// Habits for a small case.
fn small(steps: i64) -> Habits {
    Habits {
        steps,
        repeats: 1,
        reuses: 5,
        wraps: 6,
        moves: 2,
        always: 1,
        facts: 3,
        pairs: 2,
        views: 0,
        breadth: 3,
    }
}

/// Habits for a case of any size, mostly small.
fn some_habits(random: &mut Random) -> Habits {
    let mut habits = match random.below(20) {
        0..=9 => small(1 + random.below(12) as i64),
        10..=15 => middle(16 + random.below(40) as i64),
        16..=18 => large(50 + random.below(200) as i64),
        _ => large(300 + random.below(1200) as i64),
    };
    if random.one_in(6) {
        habits.facts = 7;
        habits.pairs = 8;
        habits.breadth = 5;
        habits.repeats = random.below(3);
    }
    if random.one_in(8) {
        habits.wraps = 2;
    }
    if random.one_in(8) {
        habits.views = 8;
        habits.wraps = 2;
    }
    habits
}

/// Habits for a case of some tens of steps.
fn middle(steps: i64) -> Habits {
    Habits {
        steps,
        repeats: 3,
        reuses: 5,
        wraps: 5,
        moves: 4,
        always: 2,
        facts: 2,
        pairs: 4,
        views: 0,
        breadth: 3,
    }
}

/// Habits for a case of hundreds of steps.
fn large(steps: i64) -> Habits {
    Habits {
        steps,
        repeats: 6,
        reuses: 7,
        wraps: 7,
        moves: 4,
        always: 7,
        facts: 1,
        pairs: 8,
        views: 0,
        breadth: 4,
    }
}

/// One try at a case with the habits and such pairs.
fn attempt(random: &mut Random, habits: Habits, pairs: Lending) -> Option<Case> {
    let mut office = Office::new(random, habits);
    office.pairs = pairs(office.random, &office.names);
    let request = office.request();
    let goal = Goal {
        formula: may(request),
        span: Span::PRESS,
        view: View {
            principal: ADMINISTRATOR,
            span: Span::PRESS,
        },
        levels: 31,
    };
    let mut proof = office.says_in(&goal)?;
    if office.random.one_in(6) {
        proof = office.passed_on(proof);
    }
    let inside = proof.levels() <= 32 && proof.count_of(tags::STATE) <= 16;
    if !inside || proof.bytes().len() > 4096 {
        return None;
    }
    Some(case_of(&mut office, request, proof))
}
