//! The moments that a case mentions.

use super::clauses::NoWatch;
use super::formulas::{Formula, Slot};
use super::steps::{Checking, Inference, Inferring, Step};
use super::times::Interval;
use super::verify::read_case;
use crate::data::{Case, Term, Time};

/// Every moment in the records of a case and, where they can be read, in its formulas and its proof.
pub fn moments_of(case: &Case) -> Vec<u64> {
    let mut found = Vec::new();
    for record in &case.records {
        add_time(record.from, &mut found);
        add_time(record.to, &mut found);
    }
    if let Ok((certificates, proof)) = read_case(case, &mut NoWatch) {
        for certificate in &certificates {
            add_formula(&certificate.judgement.formula, &mut found);
        }
        add_step(&proof, &mut found);
    }
    found.sort_unstable();
    found.dedup();
    found
}

/// Adds the time if it is a moment.
fn add_time(time: Time, found: &mut Vec<u64>) {
    if let Time::Moment(moment) = time {
        found.push(moment);
    }
}

/// Adds the term if it is a moment.
fn add_term(term: Term, found: &mut Vec<u64>) {
    if let Term::When(time) = term {
        add_time(time, found);
    }
}

/// Adds the moments among slots.
fn add_slots(slots: &[Slot], found: &mut Vec<u64>) {
    for slot in slots {
        if let Slot::Term(term) = slot {
            add_term(*term, found);
        }
    }
}

/// Adds the moments in a formula.
fn add_formula(formula: &Formula, found: &mut Vec<u64>) {
    match formula {
        Formula::Top | Formula::Falsity => {}
        Formula::And(first, second)
        | Formula::Implies(first, second)
        | Formula::Or(first, second) => {
            add_formula(first, found);
            add_formula(second, found);
        }
        Formula::ForAll(_, part) | Formula::Says(_, part) => add_formula(part, found),
        Formula::At(from, to, held) => {
            add_slots(&[*from, *to], found);
            add_formula(held, found);
        }
        Formula::Atom(saying) | Formula::State(saying) => add_slots(&saying.slots, found),
        Formula::Order(first, second) => add_slots(&[*first, *second], found),
    }
}

/// Adds the moments in a step.
fn add_step(step: &Step, found: &mut Vec<u64>) {
    match step {
        Step::Infers(inference) => add_inference(inference, found),
        Step::Checks(check) => add_check(&check.rule, found),
    }
}

/// Adds the moments in an inferring step.
fn add_inference(inference: &Inference, found: &mut Vec<u64>) {
    match &inference.rule {
        Inferring::Assumption(_) | Inferring::Certificate(_) => {}
        Inferring::First(from) | Inferring::Second(from) => add_inference(from, found),
        Inferring::Apply(implication, condition, Interval { from, to }) => {
            add_inference(implication, found);
            add_step(condition, found);
            add_time(*from, found);
            add_time(*to, found);
        }
        Inferring::Instance(term, from) => {
            add_term(*term, found);
            add_inference(from, found);
        }
    }
}

/// Adds the moments in a checking step.
fn add_check(rule: &Checking, found: &mut Vec<u64>) {
    match rule {
        Checking::Top | Checking::State | Checking::Order => {}
        Checking::Pair(first, second) => {
            add_step(first, found);
            add_step(second, found);
        }
        Checking::AtIn(inside) | Checking::SaysIn(inside) | Checking::Side(_, inside) => {
            add_step(inside, found);
        }
        Checking::AtOut(inference, rest) | Checking::SaysOut(inference, rest) => {
            add_inference(inference, found);
            add_step(rest, found);
        }
        Checking::Cases(inference, left, right) => {
            add_inference(inference, found);
            add_step(left, found);
            add_step(right, found);
        }
        Checking::ByFalsity(inference) => add_inference(inference, found),
    }
}
