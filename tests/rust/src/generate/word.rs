//! Terms as formulas and proofs spell them: with bound variables.

use super::tags;
use crate::data::{Term, Time};

/// What a variable or a term stands for.
#[derive(Clone, Copy, Debug, PartialEq, Eq)]
pub enum Sort {
    Name,
    Time,
}

/// A term or a bound variable, 0 being the innermost binder's.
#[derive(Clone, Copy, Debug, PartialEq, Eq)]
pub enum Word {
    Fixed(Term),
    Bound(u8),
}

/// The sort of a term.
pub fn sort_of(term: Term) -> Sort {
    match term {
        Term::Name(_) => Sort::Name,
        Term::When(_) => Sort::Time,
    }
}

impl Word {
    /// The word for ctime.
    pub const CTIME: Word = Word::Fixed(Term::When(Time::Ctime));

    /// The word for a name.
    pub fn name(name: u16) -> Word {
        Word::Fixed(Term::Name(name))
    }

    /// The word for a time.
    pub fn when(time: Time) -> Word {
        Word::Fixed(Term::When(time))
    }

    /// The word for a moment.
    pub fn moment(moment: u64) -> Word {
        Word::when(Time::Moment(moment))
    }

    /// The time that the word spells, if it spells one.
    pub fn time(self) -> Option<Time> {
        match self {
            Word::Fixed(Term::When(time)) => Some(time),
            _ => None,
        }
    }

    /// The name that the word spells, if it spells one.
    pub fn as_name(self) -> Option<u16> {
        match self {
            Word::Fixed(Term::Name(name)) => Some(name),
            _ => None,
        }
    }

    /// Adds the word's bytes; of a moment, the lowest five.
    pub fn write(self, out: &mut Vec<u8>) {
        match self {
            Word::Fixed(Term::Name(name)) => {
                out.push(tags::NAME);
                out.extend(name.to_be_bytes());
            }
            Word::Fixed(Term::When(time)) => write_time(time, out),
            Word::Bound(index) => out.extend([tags::BOUND, index]),
        }
    }

    /// Reads a word at a place, and moves the place behind it.
    pub fn read(bytes: &[u8], place: &mut usize) -> Option<Word> {
        let tag = *bytes.get(*place)?;
        let rest = &bytes[*place + 1..];
        let (word, length) = match tag {
            tags::NAME => (Word::name(number(rest, 2)? as u16), 2),
            tags::MOMENT => (Word::moment(number(rest, 5)?), 5),
            tags::MINUS_INFINITY => (Word::when(Time::MinusInfinity), 0),
            tags::PLUS_INFINITY => (Word::when(Time::PlusInfinity), 0),
            tags::CTIME => (Word::CTIME, 0),
            tags::BOUND => (Word::Bound(number(rest, 1)? as u8), 1),
            _ => return None,
        };
        *place += 1 + length;
        Some(word)
    }
}

/// Adds the bytes of a time.
fn write_time(time: Time, out: &mut Vec<u8>) {
    match time {
        Time::Moment(moment) => {
            out.push(tags::MOMENT);
            out.extend(&moment.to_be_bytes()[3..]);
        }
        Time::MinusInfinity => out.push(tags::MINUS_INFINITY),
        Time::PlusInfinity => out.push(tags::PLUS_INFINITY),
        Time::Ctime => out.push(tags::CTIME),
    }
}

/// The number that the first bytes spell.
pub fn number(bytes: &[u8], length: usize) -> Option<u64> {
    let digits = bytes.get(..length)?;
    Some(
        digits
            .iter()
            .fold(0, |sum, digit| sum << 8 | u64::from(*digit)),
    )
}
