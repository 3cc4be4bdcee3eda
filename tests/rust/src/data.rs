//! The plain data that everything here shares: what a caller hands in, and what comes back.

/// The latest moment of the clock.
pub const LATEST: u64 = (1 << 40) - 1;

/// Who wants to use what, by which right.
#[derive(Clone, Copy, Debug, PartialEq, Eq)]
pub struct Request {
    pub who: u16,
    pub what: u16,
    pub right: u16,
}

/// A time. A moment may be any number here: whether it is in the clock's range is for the checkers to say.
#[derive(Clone, Copy, Debug, PartialEq, Eq)]
pub enum Time {
    Moment(u64),
    MinusInfinity,
    PlusInfinity,
    Ctime,
}

/// A term without variables.
#[derive(Clone, Copy, Debug, PartialEq, Eq)]
pub enum Term {
    Name(u16),
    When(Time),
}

/// A certificate's record: the part of the buffer from `start`, `length` bytes long, is what the principal says.
#[derive(Clone, Copy, Debug, PartialEq, Eq)]
pub struct Record {
    pub principal: u16,
    pub from: Time,
    pub to: Time,
    pub start: u64,
    pub length: u64,
}

/// That one principal stands above another.
#[derive(Clone, Copy, Debug, PartialEq, Eq)]
pub struct Pair {
    pub stronger: u16,
    pub weaker: u16,
}

/// All that verify is asked about.
#[derive(Clone, Debug, PartialEq, Eq)]
pub struct Case {
    pub request: Request,
    pub records: Vec<Record>,
    pub buffer: Vec<u8>,
    pub pairs: Vec<Pair>,
    pub proof: Vec<u8>,
}

/// A fact that must hold at the press.
#[derive(Clone, Debug, PartialEq, Eq)]
pub struct Fact {
    pub predicate: u16,
    pub terms: Vec<Term>,
}

/// A procap: for its request it opens from `from` to `to` while its facts hold.
#[derive(Clone, Debug, PartialEq, Eq)]
pub struct Procap {
    pub request: Request,
    pub from: u64,
    pub to: u64,
    pub facts: Vec<Fact>,
}

/// A numbered answer and its place.
#[derive(Clone, Copy, Debug, PartialEq, Eq)]
pub struct Answer {
    pub number: u64,
    pub place: u64,
}

impl Answer {
    /// Issued, open, accepted, written, read.
    pub const GRANTED: Answer = Answer {
        number: 0,
        place: 0,
    };

    /// A refusal by its number and place.
    pub const fn refused(number: u64, place: u64) -> Answer {
        Answer { number, place }
    }

    /// The answer that an outcome comes to.
    pub fn of<T>(outcome: &Result<T, Answer>) -> Answer {
        match outcome {
            Ok(_) => Answer::GRANTED,
            Err(refusal) => *refusal,
        }
    }
}
