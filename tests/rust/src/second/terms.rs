//! Terms: their sorts, their bytes, and what a moment makes of them.

use super::bytes::Bytes;
use crate::data::{Term, Time};

/// What a term can be, and what a for-all can range over.
#[derive(Clone, Copy, Debug, PartialEq, Eq)]
pub enum Sort {
    Name,
    Time,
}

/// How many terms a fact or an atom has at most.
pub const MOST_TERMS: usize = 4;

/// The sort of a term.
pub fn sort_of(term: Term) -> Sort {
    match term {
        Term::Name(_) => Sort::Name,
        Term::When(_) => Sort::Time,
    }
}

/// The term that comes next, if one does.
pub fn read_term(bytes: &mut Bytes) -> Option<Term> {
    let tag = bytes.byte()?;
    read_tagged(tag, bytes)
}

/// The term that comes next, if it is one and not ctime.
pub fn read_settled(bytes: &mut Bytes) -> Option<Term> {
    read_term(bytes).filter(|term| *term != Term::When(Time::Ctime))
}

/// The time that comes next, if one does.
pub fn read_time(bytes: &mut Bytes) -> Option<Time> {
    match read_term(bytes)? {
        Term::Name(_) => None,
        Term::When(time) => Some(time),
    }
}

/// The term with this tag whose other bytes come next, if there is one.
pub fn read_tagged(tag: u8, bytes: &mut Bytes) -> Option<Term> {
    match tag {
        0x00 => Some(Term::Name(bytes.pair()?)),
        0x01 => Some(Term::When(Time::Moment(bytes.moment()?))),
        0x02 => Some(Term::When(Time::MinusInfinity)),
        0x03 => Some(Term::When(Time::PlusInfinity)),
        0x04 => Some(Term::When(Time::Ctime)),
        _ => None,
    }
}

/// A predicate and its terms as they come next, each term read in the way given, if they are there.
pub fn read_predicate<T>(
    bytes: &mut Bytes,
    mut read: impl FnMut(&mut Bytes) -> Option<T>,
) -> Option<(u16, Vec<T>)> {
    let predicate = bytes.pair()?;
    let count = usize::from(bytes.byte()?);
    if count > MOST_TERMS {
        return None;
    }
    let mut terms = Vec::with_capacity(count);
    for _ in 0..count {
        terms.push(read(bytes)?);
    }
    Some((predicate, terms))
}

/// The term at a press: the moment where it is ctime.
pub fn term_at(term: Term, moment: u64) -> Term {
    match term {
        Term::When(Time::Ctime) => Term::When(Time::Moment(moment)),
        other => other,
    }
}
