//! The procap as a value of fixed size, the way a caller hands it over in bytes.

use super::terms::MOST_TERMS;
use super::text::{writable, MOST_FACTS};
use crate::data::{Fact, Procap, Request, Term, Time};

/// How many bytes a value has.
pub const VALUE_BYTES: usize = HEAD_BYTES + MOST_FACTS * FACT_BYTES;

/// How many bytes of a value come before its facts.
const HEAD_BYTES: usize = 24;

/// How many bytes of a value a fact takes.
const FACT_BYTES: usize = 3 + MOST_TERMS * 9;

/// What stands in a value where no term is.
const NO_TERM: Term = Term::Name(0);

/// A value's bytes, taken from the front.
struct Taken<'a>(&'a [u8]);

impl Taken<'_> {
    /// The next so many bytes as a number, which is 0 where none are left.
    fn number(&mut self, bytes: usize) -> u64 {
        let (here, rest) = self.0.split_at(bytes.min(self.0.len()));
        self.0 = rest;
        here.iter()
            .fold(0, |number, byte| number << 8 | u64::from(*byte))
    }

    /// The next two bytes as a number.
    fn pair(&mut self) -> u16 {
        self.number(2) as u16
    }

    /// The next term.
    fn term(&mut self) -> Term {
        let (kind, value) = (self.number(1), self.number(8));
        match kind {
            0 => Term::Name(value as u16),
            1 => Term::When(Time::Moment(value)),
            2 => Term::When(Time::MinusInfinity),
            3 => Term::When(Time::PlusInfinity),
            _ => Term::When(Time::Ctime),
        }
    }

    /// The next fact, if it holds zeros past its count.
    fn fact(&mut self) -> Option<Fact> {
        let predicate = self.pair();
        let count = self.number(1) as usize;
        let mut terms: Vec<Term> = (0..MOST_TERMS).map(|_| self.term()).collect();
        let past = terms.get(count..)?;
        if past.iter().any(|term| *term != NO_TERM) {
            return None;
        }
        terms.truncate(count);
        Some(Fact { predicate, terms })
    }
}

/// The procap that a value holds, if it can be written.
pub fn read_value(value: &[u8]) -> Option<Procap> {
    if value.len() != VALUE_BYTES {
        return None;
    }
    let mut taken = Taken(value);
    let version = taken.number(1);
    let request = Request {
        who: taken.pair(),
        what: taken.pair(),
        right: taken.pair(),
    };
    let (from, to) = (taken.number(8), taken.number(8));
    let count = taken.number(1) as usize;
    let facts: Option<Vec<Fact>> = (0..MOST_FACTS).map(|_| taken.fact()).collect();
    let mut facts = facts?;
    let past = facts.get(count..)?;
    let zeros = past
        .iter()
        .all(|fact| fact.predicate == 0 && fact.terms.is_empty());
    facts.truncate(count);
    let procap = Procap {
        request,
        from,
        to,
        facts,
    };
    (version == 1 && zeros && writable(&procap)).then_some(procap)
}

/// The value that holds a procap of at most 16 facts with at most 4 terms each.
pub fn value_of(procap: &Procap) -> Vec<u8> {
    let Request { who, what, right } = procap.request;
    let mut value = vec![1];
    for number in [who, what, right] {
        value.extend(number.to_be_bytes());
    }
    value.extend(procap.from.to_be_bytes());
    value.extend(procap.to.to_be_bytes());
    value.push(procap.facts.len() as u8);
    for fact in &procap.facts {
        add_fact(&mut value, fact);
    }
    value.resize(VALUE_BYTES, 0);
    value
}

/// Adds a fact to a value.
fn add_fact(value: &mut Vec<u8>, fact: &Fact) {
    let end = value.len() + FACT_BYTES;
    value.extend(fact.predicate.to_be_bytes());
    value.push(fact.terms.len() as u8);
    for term in &fact.terms {
        let (kind, number) = match *term {
            Term::Name(name) => (0, u64::from(name)),
            Term::When(Time::Moment(moment)) => (1, moment),
            Term::When(Time::MinusInfinity) => (2, 0),
            Term::When(Time::PlusInfinity) => (3, 0),
            Term::When(Time::Ctime) => (4, 0),
        };
        value.push(kind);
        value.extend(number.to_be_bytes());
    }
    value.resize(end, 0);
}
