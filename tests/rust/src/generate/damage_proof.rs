//! One small damage to a proof that leaves it readable more often than not.

use super::clock::any_moment;
use super::damage::another_name;
use super::step::Step;
use super::tags;
use super::word::Word;
use super::Random;
use crate::data::{Term, Time, LATEST};

/// The proof with one damage, in a list of so many certificates.
pub fn damaged_proof(random: &mut Random, mut proof: Step, certificates: usize) -> Step {
    let whole = proof.clone();
    if random.one_in(8) && aimed(random, &mut proof) {
        return proof;
    }
    if random.one_in(8) && interval_cut(random, &mut proof) {
        if random.one_in(4) {
            aimed(random, &mut proof);
        }
        return proof;
    }
    for _ in 0..20 {
        let n = random.below(proof.count() as u64) as usize;
        let (step, around) = proof.nth(n);
        if change(random, step, around, certificates, &whole) {
            return proof;
        }
    }
    proof
}

/// Lets a step that names something name any assumption around it, if there is such a step under assumptions.
fn aimed(random: &mut Random, proof: &mut Step) -> bool {
    let mut places = Vec::new();
    for n in 0..proof.count() {
        let (step, around) = proof.nth(n);
        if is_named(step) && around > 0 {
            places.push(n);
        }
    }
    if places.is_empty() {
        return false;
    }
    let (step, around) = proof.nth(*random.pick(&places));
    *step = Step::named(tags::LOCAL, random.below(around as u64) as usize);
    true
}

/// Cuts the interval of a claim or of an or that an implication leads to, if there is one.
fn interval_cut(random: &mut Random, proof: &mut Step) -> bool {
    let mut places = Vec::new();
    for n in 0..proof.count() {
        let (step, _) = proof.nth(n);
        let takes = matches!(step.tag, tags::SAYS_OUT | tags::CASES);
        if takes && applied(&mut step.parts[0]).is_some() {
            places.push(n);
        }
    }
    if places.is_empty() {
        return false;
    }
    let (step, _) = proof.nth(*random.pick(&places));
    if let Some(step) = applied(&mut step.parts[0]) {
        let place = random.below(2) as usize;
        let ends = [Time::PlusInfinity, Time::MinusInfinity];
        step.terms[place] = match random.below(3) {
            0 => Word::when(ends[place]),
            1 => Word::moment(any_moment(random)),
            _ => another_word(random, step.terms[place]),
        };
    }
    true
}

/// The implication applied last in what leads to a judgement, if there is one.
fn applied(step: &mut Step) -> Option<&mut Step> {
    match step.tag {
        tags::APPLY => Some(step),
        tags::FIRST | tags::SECOND | tags::INSTANCE => applied(step.parts.first_mut()?),
        _ => None,
    }
}

/// Tries one damage on a step, and says whether it fitted.
fn change(
    random: &mut Random,
    step: &mut Step,
    around: usize,
    certificates: usize,
    whole: &Step,
) -> bool {
    match random.below(19) {
        0..=2 => number_changed(random, step),
        3..=4 => named_otherwise(random, step, around, certificates),
        5..=7 => term_changed(random, step),
        8 => swapped(random, step),
        9 => dropped(random, step),
        10..=11 => {
            *step = wrapped(random, step.clone(), around, certificates);
            true
        }
        12 => {
            *step = whole
                .clone()
                .nth(random.below(whole.count() as u64) as usize)
                .0
                .clone();
            true
        }
        13..=15 => tag_changed(random, step),
        16 => branches_changed(random, step),
        _ => {
            *step = some_leaf(random, around, certificates);
            true
        }
    }
}

/// Moves the number of an assumption or certificate by one.
fn number_changed(random: &mut Random, step: &mut Step) -> bool {
    if !is_named(step) {
        return false;
    }
    step.index = if random.one_in(2) {
        step.index.wrapping_add(1)
    } else {
        step.index.wrapping_sub(1)
    };
    true
}

/// Whether the step names an assumption or certificate.
fn is_named(step: &Step) -> bool {
    matches!(step.tag, tags::LOCAL | tags::CERTIFICATE)
}

/// Names another assumption or certificate there is.
fn named_otherwise(
    random: &mut Random,
    step: &mut Step,
    around: usize,
    certificates: usize,
) -> bool {
    let fits = is_named(step);
    if fits {
        *step = some_named(random, around, certificates);
    }
    fits
}

/// An assumption or certificate that there is, if there is any.
fn some_named(random: &mut Random, around: usize, certificates: usize) -> Step {
    if around > 0 && random.below(3) < 2 {
        Step::named(tags::LOCAL, random.below(around as u64) as usize)
    } else {
        Step::certificate(random.below(certificates.max(1) as u64) as usize)
    }
}

/// Changes one term of a step that has terms.
fn term_changed(random: &mut Random, step: &mut Step) -> bool {
    if step.terms.is_empty() {
        return false;
    }
    let place = random.below(step.terms.len() as u64) as usize;
    step.terms[place] = another_word(random, step.terms[place]);
    true
}

/// Another word: of another kind, or one beside it.
pub fn another_word(random: &mut Random, word: Word) -> Word {
    match (random.below(12), word) {
        (0, _) => Word::when(Time::MinusInfinity),
        (1, _) => Word::when(Time::PlusInfinity),
        (2..=3, _) => Word::CTIME,
        (4, _) => Word::name(random.below(10) as u16),
        (5, _) => Word::moment(any_moment(random)),
        (6, _) => Word::Bound(random.below(3) as u8),
        (_, Word::Bound(index)) if random.one_in(2) => Word::Bound(index.wrapping_add(1)),
        (_, Word::Bound(index)) => Word::Bound(index.wrapping_sub(1)),
        (_, Word::Fixed(Term::Name(name))) => Word::name(another_name(random, name)),
        (_, Word::Fixed(Term::When(time))) => Word::when(beside(random, time)),
    }
}

/// A time next to a time.
fn beside(random: &mut Random, time: Time) -> Time {
    match time {
        Time::Moment(moment) if random.one_in(2) => Time::Moment((moment + 1) & LATEST),
        Time::Moment(moment) => Time::Moment(moment.wrapping_sub(1) & LATEST),
        Time::MinusInfinity => Time::Moment(0),
        Time::PlusInfinity => Time::Moment(LATEST),
        Time::Ctime => Time::Moment(any_moment(random)),
    }
}

/// Swaps the terms of a step, or the steps under it.
fn swapped(random: &mut Random, step: &mut Step) -> bool {
    if step.terms.len() == 2 && random.one_in(2) {
        step.terms.swap(0, 1);
        return true;
    }
    let fits = step.parts.len() >= 2;
    if fits {
        let place = random.below(step.parts.len() as u64 - 1) as usize;
        step.parts.swap(place, place + 1);
    }
    fits
}

/// Leaves a step out: one under it takes its place.
fn dropped(random: &mut Random, step: &mut Step) -> bool {
    if step.parts.is_empty() {
        return false;
    }
    let part = random.below(step.parts.len() as u64) as usize;
    *step = step.parts[part].clone();
    true
}

/// A step with another one around it.
fn wrapped(random: &mut Random, step: Step, around: usize, certificates: usize) -> Step {
    let named = some_named(random, around, certificates);
    match random.below(14) {
        0 => Step::over(tags::FIRST, vec![step]),
        1 => Step::over(tags::SECOND, vec![step]),
        2 => Step::over(tags::AT_IN, vec![step]),
        3 => Step::over(tags::SAYS_IN, vec![step]),
        4 => Step::instance(Term::Name(random.below(4) as u16), step),
        5 => Step::instance(Term::When(Time::Ctime), step),
        6 => Step::over(tags::PAIR, vec![step, Step::leaf(tags::TRIVIAL)]),
        7 => Step::over(tags::AT_OUT, vec![named, step]),
        8 => Step::over(tags::SAYS_OUT, vec![named, step]),
        9 => Step::over(tags::LEFT, vec![step]),
        10 => Step::over(tags::RIGHT, vec![step]),
        11 => Step::over(tags::BY_FALSITY, vec![step]),
        12 => Step::over(tags::CASES, vec![named, step.clone(), step]),
        _ => Step::apply(named, step, Time::MinusInfinity, Time::PlusInfinity),
    }
}

/// Gives a step the tag of another of the same shape.
fn tag_changed(random: &mut Random, step: &mut Step) -> bool {
    let others: &[u8] = match step.tag {
        tags::LOCAL | tags::CERTIFICATE => &[tags::LOCAL, tags::CERTIFICATE],
        tags::PAIR | tags::AT_OUT | tags::SAYS_OUT => &[tags::PAIR, tags::AT_OUT, tags::SAYS_OUT],
        tags::FIRST | tags::SECOND | tags::BY_FALSITY => {
            &[tags::FIRST, tags::SECOND, tags::BY_FALSITY]
        }
        tags::AT_IN | tags::SAYS_IN | tags::LEFT | tags::RIGHT => {
            &[tags::AT_IN, tags::SAYS_IN, tags::LEFT, tags::RIGHT]
        }
        tags::TRIVIAL | tags::STATE | tags::COMPARE => &[tags::TRIVIAL, tags::STATE, tags::COMPARE],
        _ => return false,
    };
    let tag = *random.pick(others);
    let fits = tag != step.tag;
    step.tag = tag;
    fits
}

/// Lets a step with one assumption have two cases that are alike, or leaves one of two cases.
fn branches_changed(random: &mut Random, step: &mut Step) -> bool {
    match step.tag {
        tags::AT_OUT | tags::SAYS_OUT => {
            step.tag = tags::CASES;
            step.parts.push(step.parts[1].clone());
        }
        tags::CASES => {
            step.tag = *random.pick(&[tags::AT_OUT, tags::SAYS_OUT]);
            step.parts.remove(1 + random.below(2) as usize);
        }
        _ => return false,
    }
    true
}

/// A step with nothing under it.
fn some_leaf(random: &mut Random, around: usize, certificates: usize) -> Step {
    match random.below(6) {
        0 => Step::leaf(tags::TRIVIAL),
        1 => Step::leaf(tags::STATE),
        2 => Step::leaf(tags::COMPARE),
        _ => some_named(random, around, certificates),
    }
}
