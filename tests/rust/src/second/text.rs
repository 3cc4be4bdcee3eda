//! The procap text: its reader and its writer.

use super::lines::{decimal, two_byte_number, Lines};
use super::terms::MOST_TERMS;
use super::times::in_range;
use crate::data::{Answer, Fact, Procap, Request, Term, Time, LATEST};

/// How many facts a procap lists at most.
pub const MOST_FACTS: usize = 16;

/// That a text is malformed, or that a procap has none.
const NO_TEXT: Answer = Answer::refused(12, 0);

/// Whether a procap has a text.
pub fn writable(procap: &Procap) -> bool {
    let facts = &procap.facts;
    procap.from <= procap.to
        && procap.to <= LATEST
        && facts.len() <= MOST_FACTS
        && facts.iter().all(writable_fact)
        && (0..facts.len()).all(|index| !facts[..index].contains(&facts[index]))
}

/// Whether a fact has a line.
fn writable_fact(fact: &Fact) -> bool {
    let in_clock = |term: &Term| match term {
        Term::Name(_) => true,
        Term::When(time) => in_range(*time),
    };
    fact.terms.len() <= MOST_TERMS && fact.terms.iter().all(in_clock)
}

/// The text of a procap, or that it has none.
pub fn text_of(procap: &Procap) -> Result<Vec<u8>, Answer> {
    if !writable(procap) {
        return Err(NO_TEXT);
    }
    let Request { who, what, right } = procap.request;
    let (from, to, facts) = (procap.from, procap.to, procap.facts.len());
    let mut text = format!(
        "procap=1\nwho={who}\nwhat={what}\nright={right}\nfrom={from}\nto={to}\nfacts={facts}\n"
    );
    for fact in &procap.facts {
        add_fact(&mut text, fact);
    }
    Ok(text.into_bytes())
}

/// Adds the line of a fact.
fn add_fact(text: &mut String, fact: &Fact) {
    text.push_str("fact=");
    text.push_str(&fact.predicate.to_string());
    for term in &fact.terms {
        text.push(' ');
        match term {
            Term::Name(name) => text.push_str(&format!("n{name}")),
            Term::When(Time::Moment(moment)) => text.push_str(&format!("t{moment}")),
            Term::When(Time::MinusInfinity) => text.push('-'),
            Term::When(Time::PlusInfinity) => text.push('+'),
            Term::When(Time::Ctime) => text.push('c'),
        }
    }
    text.push('\n');
}

/// The length of a procap's text, now at the front of a lent buffer, or why nothing was written.
pub fn write_text(procap: &Procap, out: &mut [u8]) -> Result<usize, Answer> {
    let text = text_of(procap)?;
    let room = out.get_mut(..text.len()).ok_or(Answer::refused(13, 0))?;
    room.copy_from_slice(&text);
    Ok(text.len())
}

/// The procap that a text spells, or that it spells none.
pub fn read_text(text: &[u8]) -> Result<Procap, Answer> {
    let procap = read_lines(&mut Lines::of(text)).ok_or(NO_TEXT)?;
    if writable(&procap) {
        Ok(procap)
    } else {
        Err(NO_TEXT)
    }
}

/// The procap on these lines, if they have the form of one, whether or not its values go together.
fn read_lines(lines: &mut Lines) -> Option<Procap> {
    lines.field(b"procap=1", |rest| rest.is_empty().then_some(()))?;
    let request = read_request(lines)?;
    let from = lines.field(b"from=", read_moment)?;
    let to = lines.field(b"to=", read_moment)?;
    let count = lines.field(b"facts=", |rest| decimal(rest, MOST_FACTS as u64))?;
    let mut facts = Vec::new();
    for _ in 0..count {
        facts.push(lines.field(b"fact=", read_fact)?);
    }
    lines.end()?;
    Some(Procap {
        request,
        from,
        to,
        facts,
    })
}

/// The request on the next three lines, if there is one.
pub fn read_request(lines: &mut Lines) -> Option<Request> {
    Some(Request {
        who: lines.field(b"who=", two_byte_number)?,
        what: lines.field(b"what=", two_byte_number)?,
        right: lines.field(b"right=", two_byte_number)?,
    })
}

/// The moment spelled here, if there is one.
pub fn read_moment(spelled: &[u8]) -> Option<u64> {
    decimal(spelled, LATEST)
}

/// The fact spelled here, if there is one.
fn read_fact(spelled: &[u8]) -> Option<Fact> {
    let mut words = spelled.split(|byte| *byte == b' ');
    let predicate = two_byte_number(words.next()?)?;
    let mut terms = Vec::new();
    for word in words {
        if terms.len() == MOST_TERMS {
            return None;
        }
        terms.push(read_term(word)?);
    }
    Some(Fact { predicate, terms })
}

/// The term spelled here, if there is one.
fn read_term(spelled: &[u8]) -> Option<Term> {
    match spelled {
        b"-" => Some(Term::When(Time::MinusInfinity)),
        b"+" => Some(Term::When(Time::PlusInfinity)),
        b"c" => Some(Term::When(Time::Ctime)),
        [b'n', name @ ..] => Some(Term::Name(two_byte_number(name)?)),
        [b't', moment @ ..] => Some(Term::When(Time::Moment(read_moment(moment)?))),
        _ => None,
    }
}
