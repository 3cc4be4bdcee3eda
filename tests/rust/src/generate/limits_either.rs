//! Cases close to a limit that ors and their cases reach too.

use super::either::latest;
use super::formula::Formula;
use super::limits::{all_of, always, case, near, pairs_of, some_request};
use super::limits_proof::{apply_at_press, some_facts};
use super::step::Step;
use super::tags;
use super::valid::may;
use super::Random;
use crate::data::Case;

/// The step in one of two cases, where the other is shown by its own assumption.
pub fn in_one_case(random: &mut Random, certificate: usize, step: Step) -> Step {
    let mut parts = vec![Step::certificate(certificate), step, latest()];
    if random.one_in(2) {
        parts.swap(1, 2);
    }
    Step::over(tags::CASES, parts)
}

/// A certificate of 15 to 17 levels of ors, shown by cases within cases.
pub fn or_levels(random: &mut Random) -> Case {
    let request = some_request(random);
    let levels = near(random, 16);
    let (formula, shown) = nested(random, levels, &may(request), Step::certificate(0));
    case(request, &[always(formula)], shown)
}

/// An or of so many levels, each side leading to what is wanted, and the step that shows it where a step infers the or.
fn nested(random: &mut Random, levels: usize, wanted: &Formula, or: Step) -> (Formula, Step) {
    if levels <= 1 {
        return match random.one_in(3) {
            true => {
                let absurd = Step::over(tags::BY_FALSITY, vec![or]);
                (Formula::falsity(), absurd)
            }
            false => (wanted.clone(), or),
        };
    }
    let mut sides = [levels - 1, 1];
    if random.one_in(2) {
        sides.reverse();
    }
    let [(left, first), (right, second)] =
        sides.map(|levels| nested(random, levels, wanted, latest()));
    let cases = Step::over(tags::CASES, vec![or, first, second]);
    (Formula::either(left, right), cases)
}

/// 15 to 17 state steps spread over two cases, their facts all different or not.
pub fn state_steps_in_cases(random: &mut Random) -> Case {
    let request = some_request(random);
    let count = near(random, 16);
    let facts = some_facts(random, count);
    let (left, right) = facts.split_at(random.below(count as u64 + 1) as usize);
    let policy = [
        always(Formula::implies(all_of(left), may(request))),
        always(Formula::implies(all_of(right), may(request))),
        always(Formula::either(Formula::top(), Formula::falsity())),
    ];
    let shown = |number, facts: &[Formula]| {
        let states = vec![Step::leaf(tags::STATE); facts.len()];
        apply_at_press(number, pairs_of(&states))
    };
    let parts = vec![Step::certificate(2), shown(0, left), shown(1, right)];
    case(request, &policy, Step::over(tags::CASES, parts))
}
