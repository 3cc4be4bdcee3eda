//! One small damage to a certificate's formula that leaves it readable more often than not.

use super::constant::some_constant;
use super::damage_proof::another_word;
use super::formula::Formula;
use super::tags;
use super::word::{Sort, Word};
use super::Random;
use crate::data::Time;

/// The formula with one damage.
pub fn damaged_formula(random: &mut Random, mut formula: Formula) -> Formula {
    let whole = formula.clone();
    if random.one_in(2) && aimed(random, &mut formula) {
        return formula;
    }
    for _ in 0..20 {
        let n = random.below(formula.count() as u64) as usize;
        if change(random, formula.nth(n), &whole) {
            return formula;
        }
    }
    formula
}

/// Turns an order round or lets a variable name a binder beside its own, if there is one of these.
fn aimed(random: &mut Random, formula: &mut Formula) -> bool {
    let bound = |word: &Word| matches!(word, Word::Bound(_));
    let mut places = Vec::new();
    for n in 0..formula.count() {
        let inside = formula.nth(n);
        if inside.tag == tags::ORDER || inside.words.iter().any(bound) {
            places.push(n);
        }
    }
    if places.is_empty() {
        return false;
    }
    let inside = formula.nth(*random.pick(&places));
    match inside.words.iter_mut().find(|word| bound(word)) {
        Some(Word::Bound(index)) => *index ^= 1,
        _ => inside.words.swap(0, 1),
    }
    true
}

/// Tries one damage on a formula, and says whether it fitted.
fn change(random: &mut Random, formula: &mut Formula, whole: &Formula) -> bool {
    match random.below(16) {
        0..=4 => word_changed(random, formula),
        5..=6 => predicate_changed(random, formula),
        7..=8 => tag_changed(random, formula),
        9 => dropped(random, formula),
        10..=11 => {
            *formula = wrapped(random, formula.clone());
            true
        }
        12 => {
            let n = random.below(whole.count() as u64) as usize;
            *formula = whole.clone().nth(n).clone();
            true
        }
        13 => arguments_changed(random, formula),
        14 => swapped(random, formula),
        _ => {
            *formula = some_constant(random, 2);
            true
        }
    }
}

/// Changes one word of a formula that has words.
fn word_changed(random: &mut Random, formula: &mut Formula) -> bool {
    if formula.words.is_empty() {
        return false;
    }
    let place = random.below(formula.words.len() as u64) as usize;
    formula.words[place] = another_word(random, formula.words[place]);
    true
}

/// Moves the predicate of an atom or fact.
fn predicate_changed(random: &mut Random, formula: &mut Formula) -> bool {
    let change = *random.pick(&[1, 100, 256, 65_535]);
    formula.predicate = formula.predicate.wrapping_add(change);
    matches!(formula.tag, tags::ATOM | tags::FACT)
}

/// Gives a formula the tag of another kind of the same shape.
fn tag_changed(random: &mut Random, formula: &mut Formula) -> bool {
    let others: &[u8] = match formula.tag {
        tags::BOTH => &[tags::IMPLIES, tags::EITHER],
        tags::IMPLIES => &[tags::BOTH, tags::EITHER],
        tags::EITHER => &[tags::BOTH, tags::IMPLIES],
        tags::TOP => &[tags::FALSITY],
        tags::FALSITY => &[tags::TOP],
        tags::ALL_NAMES => &[tags::ALL_TIMES],
        tags::ALL_TIMES => &[tags::ALL_NAMES],
        tags::ATOM => &[tags::FACT],
        tags::FACT => &[tags::ATOM],
        _ => return false,
    };
    formula.tag = *random.pick(others);
    true
}

/// Leaves a formula out: one under it takes its place.
fn dropped(random: &mut Random, formula: &mut Formula) -> bool {
    if formula.parts.is_empty() {
        return false;
    }
    let part = random.below(formula.parts.len() as u64) as usize;
    *formula = formula.parts[part].clone();
    true
}

/// A formula with another one around it.
fn wrapped(random: &mut Random, formula: Formula) -> Formula {
    match random.below(10) {
        0 => Formula::for_all(Sort::Name, formula),
        1 => Formula::for_all(Sort::Time, formula),
        2 => Formula::says(Word::name(1), formula),
        3 => Formula::at(
            Word::when(Time::MinusInfinity),
            Word::when(Time::PlusInfinity),
            formula,
        ),
        4 => Formula::both(formula, Formula::top()),
        5 => Formula::both(Formula::top(), formula),
        6 => Formula::implies(formula, Formula::top()),
        7 => Formula::either(formula, some_constant(random, 2)),
        8 => Formula::either(some_constant(random, 2), formula),
        _ => Formula::implies(Formula::top(), formula),
    }
}

/// Adds or takes away an argument of an atom or fact.
fn arguments_changed(random: &mut Random, formula: &mut Formula) -> bool {
    if !matches!(formula.tag, tags::ATOM | tags::FACT) {
        return false;
    }
    if random.one_in(2) && formula.words.pop().is_some() {
        return true;
    }
    formula.words.push(Word::name(random.below(4) as u16));
    true
}

/// Swaps the first two words of a formula, or the formulas under it.
fn swapped(random: &mut Random, formula: &mut Formula) -> bool {
    if formula.words.len() >= 2 {
        let last = formula.words.len() as u64 - 1;
        let place = random.below(last) as usize;
        formula.words.swap(place, place + 1);
        return true;
    }
    let fits = formula.parts.len() == 2;
    if fits {
        formula.parts.swap(0, 1);
    }
    fits
}
