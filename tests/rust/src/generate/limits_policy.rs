//! Cases close to a limit of records and formulas.

use super::clock::Span;
use super::formula::Formula;
use super::limits::{always, case, granting, near, some_request};
use super::step::Step;
use super::tags;
use super::valid::may;
use super::word::{Sort, Word};
use super::Random;
use crate::data::{Case, Request, Term, Time, LATEST};

/// 31 to 33 records; one of them grants.
pub fn records(random: &mut Random) -> Case {
    let request = some_request(random);
    let count = near(random, 32);
    let place = random.below(count as u64) as usize;
    let mut policy = vec![always(Formula::top()); count];
    policy[place] = granting(request);
    case(request, &policy, Step::certificate(place))
}

/// A conjunction of tops with exactly so many bytes.
pub fn filler(bytes: usize) -> Formula {
    match bytes {
        0..=1 => Formula::top(),
        2 => Formula::for_all(Sort::Time, Formula::top()),
        _ => {
            let left = (bytes - 1) / 2;
            Formula::both(filler(left), filler(bytes - 1 - left))
        }
    }
}

/// A part of 255 to 257 bytes.
pub fn part_bytes(random: &mut Random) -> Case {
    let request = some_request(random);
    let wanted = may(request);
    let rest = near(random, 256) - 1 - wanted.bytes().len();
    let formula = Formula::both(filler(rest), wanted);
    let proof = Step::over(tags::SECOND, vec![Step::certificate(0)]);
    case(request, &[always(formula)], proof)
}

/// One elimination more around a formula and its proof; the proof is to stand under it.
fn around(random: &mut Random, formula: Formula, binders_left: &mut usize) -> (Formula, Move) {
    match random.below(4) {
        0 => (Formula::both(formula, Formula::top()), Move::First),
        1 => (Formula::both(Formula::top(), formula), Move::Second),
        2 => (Formula::implies(Formula::top(), formula), Move::Apply),
        _ if *binders_left > 0 => {
            *binders_left -= 1;
            (Formula::for_all(Sort::Name, formula), Move::Instance)
        }
        _ => (Formula::both(formula, Formula::top()), Move::First),
    }
}

/// An elimination that asks for nothing but top.
pub enum Move {
    First,
    Second,
    Apply,
    Instance,
}

/// The step that does an elimination.
fn eliminated(step: &Move, inner: Step) -> Step {
    match step {
        Move::First => Step::over(tags::FIRST, vec![inner]),
        Move::Second => Step::over(tags::SECOND, vec![inner]),
        Move::Apply => Step::apply(
            inner,
            Step::leaf(tags::TRIVIAL),
            Time::MinusInfinity,
            Time::PlusInfinity,
        ),
        Move::Instance => Step::instance(Term::Name(3), inner),
    }
}

/// The step that does eliminations, the last given first, on a certificate.
fn all_eliminated(moves: &[Move], certificate: usize) -> Step {
    match moves.split_first() {
        Some((last, rest)) => eliminated(last, all_eliminated(rest, certificate)),
        None => Step::certificate(certificate),
    }
}

/// A certificate of 15 to 17 levels.
pub fn formula_levels(random: &mut Random) -> Case {
    let request = some_request(random);
    let levels = near(random, 16);
    let (mut formula, mut moves, mut binders) = (may(request), Vec::new(), 8);
    while formula.levels() < levels {
        let (larger, step) = around(random, formula, &mut binders);
        formula = larger;
        moves.push(step);
    }
    case(request, &[always(formula)], all_eliminated(&moves, 0))
}

/// A certificate with 7 to 9 binders around its innermost place.
pub fn binders(random: &mut Random) -> Case {
    let request = some_request(random);
    let count = near(random, 8);
    let term = Term::Name(request.who);
    let (mut formula, mut proof) = (may(request), Step::certificate(0));
    for _ in 0..count {
        let each = random.one_in(2);
        let random = &mut *random;
        formula = formula.abstracted(term, Sort::Name, &mut || each && random.one_in(2));
        proof = Step::instance(term, proof);
    }
    case(request, &[always(formula)], proof)
}

/// A formula with a chain of so many levels under it, of one kind.
fn chain(random: &mut Random, levels: usize) -> Formula {
    let kind = random.below(7);
    let mut formula = Formula::atom(200, vec![]);
    for _ in 1..levels {
        formula = match kind {
            0 => Formula::says(Word::name(2), formula),
            1 => Formula::at(Word::moment(0), Word::moment(LATEST), formula),
            2 => Formula::implies(formula, Formula::top()),
            3 => Formula::both(formula, Formula::top()),
            4 => Formula::either(formula, Formula::falsity()),
            5 => Formula::either(Formula::falsity(), formula),
            _ => Formula::implies(Formula::top(), formula),
        };
    }
    formula
}

/// A certificate beside the granting one with 15 to 17 levels.
pub fn beside_levels(random: &mut Random) -> Case {
    let request = some_request(random);
    let levels = near(random, 16);
    let beside = chain(random, levels);
    let policy = [granting(request), always(beside)];
    case(request, &policy, Step::certificate(0))
}

/// An atom or fact of 3 to 5 arguments.
pub fn argument_count(random: &mut Random) -> Case {
    let request = some_request(random);
    let count = near(random, 4);
    let words: Vec<Word> = (0..count)
        .map(|place| *random.pick(&[Word::name(place as u16), Word::moment(LATEST)]))
        .collect();
    let (asked, shown) = if random.one_in(2) {
        (Formula::fact(200, words), Step::leaf(tags::STATE))
    } else {
        (Formula::atom(200, words), Step::certificate(1))
    };
    let policy = [
        always(Formula::implies(asked.clone(), may(request))),
        always(asked),
    ];
    let proof = Step::apply(Step::certificate(0), shown, Time::Ctime, Time::Ctime);
    case(request, &policy, proof)
}

/// A variable that names the outermost binder, or one further out.
pub fn variable_index(random: &mut Random) -> Case {
    let request = some_request(random);
    let depth = 1 + random.below(8) as u8;
    let index = depth - 1 + random.below(2) as u8;
    let sort = *random.pick(&[Sort::Name, Sort::Time]);
    let mut beside = match (sort, random.below(3)) {
        (_, 0) => Formula::atom(200, vec![Word::Bound(index)]),
        (Sort::Name, _) => Formula::says(Word::Bound(index), Formula::top()),
        (Sort::Time, _) => Formula::order(Word::Bound(index), Word::moment(0)),
    };
    for _ in 0..depth {
        beside = Formula::for_all(sort, beside);
    }
    let policy = [granting(request), always(beside)];
    case(request, &policy, Step::certificate(0))
}

/// From and to at the ends of the clock, and past the latest moment.
pub fn record_moments(random: &mut Random) -> Case {
    let request = some_request(random);
    let mut certificate = granting(request);
    let moments = [0, 1, LATEST - 1, LATEST, LATEST + 1, u64::MAX];
    let (from, to) = (random.below(5) as usize, random.below(3) as usize);
    certificate.span = Span {
        from: Time::Moment(moments[from]),
        to: Time::Moment(moments[(from + to).min(5)]),
    };
    case(request, &[certificate], Step::certificate(0))
}

/// A part that ends with the buffer, or with its sums past the buffer or past all numbers.
pub fn part_at_the_end(random: &mut Random) -> Case {
    let request = some_request(random);
    let policy = [granting(request), always(Formula::top())];
    let mut made = case(request, &policy, Step::certificate(0));
    let end = made.buffer.len() as u64;
    let sizes = [
        (end - 1, 1),
        (end, 0),
        (end, 1),
        (end - 1, 2),
        (end + 1, 0),
        (u64::MAX, 1),
        (u64::MAX, 0),
        (1, u64::MAX),
        (0, u64::MAX),
        (u64::MAX, u64::MAX),
        (end - 1, u64::MAX - end + 3),
        (1 << 32, 1),
        (end - 1, (1 << 32) + 1),
        (end - 1, 1 << 32),
    ];
    (made.records[1].start, made.records[1].length) = *random.pick(&sizes);
    made
}

/// Nothing where something may stand.
pub fn empty_things(random: &mut Random) -> Case {
    let request: Request = some_request(random);
    let mut made = case(request, &[granting(request)], Step::certificate(0));
    match random.below(5) {
        0 => made.proof.clear(),
        1 => made.records.clear(),
        2 => made.records[0].length = 0,
        3 => made.buffer.clear(),
        _ => {
            made.records.clear();
            made.buffer.clear();
            made.proof = vec![tags::TRIVIAL];
        }
    }
    made
}
