//! The second implementation: verify, the direct check, the door, the procap text and the program `check`.

mod assuming;
mod bytes;
mod certificates;
pub mod clauses;
mod comparing;
mod direct;
mod door;
mod formulas;
mod judging;
mod lines;
mod moments;
mod program;
mod reading;
mod spelling;
mod state;
mod steps;
mod strength;
mod terms;
mod text;
mod times;
mod trying;
mod values;
mod verify;
mod viewing;
mod wanted;

use crate::data::{Answer, Case, Fact, Procap, Request};
pub use clauses::{Clause, NoWatch, Verdict, Watch};
use door::Asked;
pub use values::VALUE_BYTES;

/// The procap that verify issues for a case, or its refusal.
pub fn verify(case: &Case, watch: &mut impl Watch) -> Result<Procap, Answer> {
    verify::verify(case, watch)
}

/// What the direct check answers for a case at a moment, in a state.
pub fn direct(case: &Case, moment: u64, state: &[u8], watch: &mut impl Watch) -> Answer {
    Answer::of(&direct::direct(case, moment, state, watch))
}

/// What the door answers to a procap that can be written.
pub fn door(procap: &Procap, request: Request, moment: u64, state: &[u8]) -> Answer {
    Answer::of(&door::door(procap, request.into(), moment, state))
}

/// What the door answers to a text. Numbers above 65,535 are in no procap's request.
pub fn door_on_text(
    text: &[u8],
    who: u64,
    what: u64,
    right: u64,
    moment: u64,
    state: &[u8],
) -> Answer {
    let asked = Asked { who, what, right };
    Answer::of(&door::door_on_text(text, asked, moment, state))
}

/// The procap that a text spells, or 12.
pub fn read_text(text: &[u8]) -> Result<Procap, Answer> {
    text::read_text(text)
}

/// The text of a procap, or 12 where it cannot be written.
pub fn text_of(procap: &Procap) -> Result<Vec<u8>, Answer> {
    text::text_of(procap)
}

/// Writes the text into a lent buffer: the answer, and the text's length (0 when refused, and then nothing is written).
pub fn write_text(procap: &Procap, out: &mut [u8]) -> (Answer, usize) {
    match text::write_text(procap, out) {
        Ok(length) => (Answer::GRANTED, length),
        Err(refusal) => (refusal, 0),
    }
}

/// The value that holds a procap of at most 16 facts with at most 4 terms each.
pub fn value_of(procap: &Procap) -> Vec<u8> {
    values::value_of(procap)
}

/// The procap that a value holds, or 12 where it cannot be written.
pub fn read_value(value: &[u8]) -> Result<Procap, Answer> {
    values::read_value(value).ok_or(Answer::refused(12, 0))
}

/// The facts that a case asks of the state at a moment, up to its first fault, when each of them is granted.
pub fn facts_wanted(case: &Case, moment: u64) -> Vec<Fact> {
    wanted::facts_wanted(case, moment)
}

/// Every moment that a case mentions, in order, as far as it can be read.
pub fn moments_of(case: &Case) -> Vec<u64> {
    moments::moments_of(case)
}

/// What the program `check` prints for its standard input.
pub fn printed(input: &[u8]) -> Vec<u8> {
    program::printed(input)
}

/// The case that an input of the program spells, or the refusal with the first line that does not.
pub fn case_of(input: &[u8]) -> Result<Case, Answer> {
    program::case_of(input)
}
