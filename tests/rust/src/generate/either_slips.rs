//! Small cases about one or with something amiss: where it holds, in its sides, in its steps, or in what is inferred.

use super::either::{atom, latest, Split, Viewed};
use super::either_compared::compared;
use super::formula::Formula;
use super::step::Step;
use super::tags;
use super::Random;
use crate::data::Case;

/// A case about an or that is mostly not shown.
pub fn about_an_or(random: &mut Random) -> Case {
    let mut split = Split::some(random);
    let side = random.below(2) as usize;
    match random.below(13) {
        0..=1 => split.or = split.clock.any_span(random),
        2 => split.sides[side].formula = another_formula(random, &split),
        3 => {
            let [left, right] = &mut split.sides;
            std::mem::swap(&mut left.formula, &mut right.formula);
        }
        4 => split.sides[side].shown = another_step(random, latest()),
        5 => split.viewed = Viewed::Within,
        6 => turn(&mut split.goal),
        7 => {
            let other = another_formula(random, &split);
            return split.case(random, other, split.by_cases());
        }
        8 => {
            let other = another_formula(random, &split);
            return split.case(random, other, split.by_falsity());
        }
        9 => {
            let shown = another_step(random, split.first());
            return split.case(random, split.either(), shown);
        }
        10..=11 => return compared(random, split),
        _ => {
            let unreadable = unreadable(random, &split);
            return split.case(random, split.either(), unreadable);
        }
    }
    split.case(random, split.either(), split.by_cases())
}

/// Turns an or into a conjunction, and a conjunction into an or.
fn turn(formula: &mut Formula) {
    formula.tag = match formula.tag {
        tags::EITHER => tags::BOTH,
        tags::BOTH => tags::EITHER,
        tag => tag,
    };
}

/// Another formula in place of an or or of a side of it, which may happen to serve.
fn another_formula(random: &mut Random, split: &Split) -> Formula {
    let goal = split.goal.clone();
    match random.below(8) {
        0 => Formula::top(),
        1 => Formula::falsity(),
        2 => Formula::both(goal.clone(), goal),
        3 => Formula::implies(goal.clone(), goal),
        4 => Formula::either(goal.clone(), goal),
        5 => Formula::either(atom(0), atom(3)),
        6 => Formula::either(Formula::top(), atom(1)),
        _ => goal,
    }
}

/// A checking step over one that infers, whatever either is.
fn another_step(random: &mut Random, inner: Step) -> Step {
    match random.below(5) {
        0 => Step::over(tags::LEFT, vec![inner]),
        1 => Step::over(tags::RIGHT, vec![inner]),
        2 => Step::over(tags::BY_FALSITY, vec![inner]),
        3 => Step::over(tags::CASES, vec![inner, latest(), latest()]),
        _ => Step::leaf(tags::TRIVIAL),
    }
}

/// The goal's step spoiled: it checks where it must infer, or names an assumption that is not there.
fn unreadable(random: &mut Random, split: &Split) -> Step {
    let checks = another_step(random, split.first());
    let mut cases = Step::over(tags::CASES, vec![split.first(), latest(), latest()]);
    match random.below(6) {
        0 => cases.parts[0] = checks,
        1 => cases.parts[0] = latest(),
        2 => cases.parts[1] = Step::named(tags::LOCAL, 1),
        3 => cases.parts[2] = Step::named(tags::LOCAL, 1),
        4 => return Step::over(tags::BY_FALSITY, vec![checks]),
        _ => {
            let tag = *random.pick(&[tags::FIRST, tags::SECOND]);
            return Step::over(tag, vec![checks]);
        }
    }
    cases
}
