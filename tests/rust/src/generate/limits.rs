//! Cases close to a limit: just below it, at it and just above it. Those within all limits are mostly shown.

use super::clock::Span;
use super::formula::Formula;
use super::layout::in_a_row;
use super::limits_either as either;
use super::limits_policy as policy;
use super::limits_proof as proof;
use super::office::Certificate;
use super::step::Step;
use super::tags;
use super::valid::{may, ADMINISTRATOR};
use super::Random;
use crate::data::{Case, Request};

/// A case close to one of the limits.
pub fn at_a_limit(random: &mut Random) -> Case {
    let makers: [fn(&mut Random) -> Case; 19] = [
        policy::records,
        policy::part_bytes,
        policy::formula_levels,
        policy::binders,
        policy::beside_levels,
        policy::argument_count,
        policy::variable_index,
        policy::record_moments,
        policy::part_at_the_end,
        policy::empty_things,
        proof::proof_bytes,
        proof::proof_levels,
        proof::elimination_levels,
        proof::state_steps,
        proof::longest_text,
        proof::assumption_index,
        proof::certificate_index,
        either::or_levels,
        either::state_steps_in_cases,
    ];
    let maker = *random.pick(&makers);
    maker(random)
}

/// A limit less one, the limit, or the limit plus one.
pub fn near(random: &mut Random, limit: usize) -> usize {
    limit - 1 + random.below(3) as usize
}

/// A request about some names.
pub fn some_request(random: &mut Random) -> Request {
    let mut name = || *random.pick(&[0, 1, 2, 7, 65_535]);
    Request {
        who: name(),
        what: name(),
        right: name(),
    }
}

/// A certificate of the administrator for all time.
pub fn always(formula: Formula) -> Certificate {
    Certificate {
        principal: ADMINISTRATOR,
        span: Span::ALWAYS,
        formula,
    }
}

/// What the request asks the administrator to say, as a certificate.
pub fn granting(request: Request) -> Certificate {
    always(may(request))
}

/// The case of a policy and the proof of what the administrator must say.
pub fn case(request: Request, policy: &[Certificate], inside: Step) -> Case {
    let (records, buffer) = in_a_row(policy);
    Case {
        request,
        records,
        buffer,
        pairs: Vec::new(),
        proof: Step::over(tags::SAYS_IN, vec![inside]).bytes(),
    }
}

/// A conjunction of formulas, as flat as may be.
pub fn all_of(formulas: &[Formula]) -> Formula {
    match formulas {
        [] => Formula::top(),
        [one] => one.clone(),
        _ => {
            let (left, right) = formulas.split_at(formulas.len() / 2);
            Formula::both(all_of(left), all_of(right))
        }
    }
}

/// Pairs of steps in the form of that conjunction.
pub fn pairs_of(steps: &[Step]) -> Step {
    match steps {
        [] => Step::leaf(tags::TRIVIAL),
        [one] => one.clone(),
        _ => {
            let (left, right) = steps.split_at(steps.len() / 2);
            Step::over(tags::PAIR, vec![pairs_of(left), pairs_of(right)])
        }
    }
}
