//! Procaps out of nothing, most of which can be written.

use second_opinion::data::{Fact, Procap, Request, Term, Time, LATEST};
use second_opinion::generate::Random;

/// A procap of at most 16 facts with at most 4 terms each.
pub fn procap(random: &mut Random) -> Procap {
    let (one, other) = (moment(random), moment(random));
    let ordered = !random.one_in(12);
    let (from, to) = match ordered {
        true => (one.min(other), one.max(other)),
        false => (one, other),
    };
    let count = *random.pick(&[0, 1, 2, 3, 15, 16]);
    Procap {
        request: Request {
            who: name(random),
            what: name(random),
            right: name(random),
        },
        from,
        to,
        facts: (0..count).map(|_| fact(random)).collect(),
    }
}

/// A name or a predicate.
fn name(random: &mut Random) -> u16 {
    match random.below(3) {
        0 => *random.pick(&[0, 1, 9, 10, 65_534, 65_535]),
        _ => random.next() as u16,
    }
}

/// A moment, seldom above the latest.
fn moment(random: &mut Random) -> u64 {
    match random.below(40) {
        0 => LATEST + 1,
        1 => random.next(),
        2..=9 => *random.pick(&[0, 1, LATEST - 1, LATEST]),
        10..=19 => random.below(3000),
        _ => random.next() & LATEST,
    }
}

/// A fact.
fn fact(random: &mut Random) -> Fact {
    let count = random.below(5);
    Fact {
        predicate: name(random),
        terms: (0..count).map(|_| term(random)).collect(),
    }
}

/// A term.
fn term(random: &mut Random) -> Term {
    match random.below(6) {
        0..=1 => Term::Name(name(random)),
        2 => Term::When(Time::Moment(random.next() & LATEST)),
        3 => Term::When(Time::MinusInfinity),
        4 => Term::When(Time::PlusInfinity),
        _ => Term::When(Time::Ctime),
    }
}
