//! The program `check`: from the lines of a case to the lines of an answer.

use super::clauses::NoWatch;
use super::lines::{decimal, two_byte_number, Lines};
use super::text::{read_moment, read_request, text_of};
use super::verify::verify;
use crate::data::{Answer, Case, Record, Time};

/// How long an input can be.
const MOST_BYTES: usize = 65_536;

/// How many groups of a certificate an input can have.
const MOST_GROUPS: u64 = 32;

/// What the program prints for an input.
pub fn printed(input: &[u8]) -> Vec<u8> {
    let text = case_of(input)
        .and_then(|case| verify(&case, &mut NoWatch))
        .and_then(|procap| text_of(&procap));
    text.unwrap_or_else(refusal)
}

/// The two lines of a refusal.
fn refusal(answer: Answer) -> Vec<u8> {
    format!("refused={}\nplace={}\n", answer.number, answer.place).into_bytes()
}

/// The case that an input spells, or the first line that does not.
pub fn case_of(input: &[u8]) -> Result<Case, Answer> {
    if input.len() > MOST_BYTES {
        return Err(Answer::refused(14, 0));
    }
    let mut lines = Lines::of(input);
    let case = read_case(&mut lines);
    case.ok_or_else(|| Answer::refused(14, lines.number()))
}

/// The case on these lines, if they have the form of one. No line is for pairs.
fn read_case(lines: &mut Lines) -> Option<Case> {
    let mut case = Case {
        request: read_request(lines)?,
        records: Vec::new(),
        buffer: Vec::new(),
        pairs: Vec::new(),
        proof: Vec::new(),
    };
    let groups = lines.field(b"certs=", |rest| decimal(rest, MOST_GROUPS))?;
    for _ in 0..groups {
        add_group(lines, &mut case)?;
    }
    case.proof = lines.field(b"proof=", read_bytes)?;
    lines.end()?;
    Some(case)
}

/// Adds the certificate on the next four lines, if there is one.
fn add_group(lines: &mut Lines, case: &mut Case) -> Option<()> {
    let principal = lines.field(b"by=", two_byte_number)?;
    let from = lines.field(b"from=", read_time)?;
    let to = lines.field(b"to=", read_time)?;
    let said = lines.field(b"says=", read_bytes)?;
    case.records.push(Record {
        principal,
        from,
        to,
        start: case.buffer.len() as u64,
        length: said.len() as u64,
    });
    case.buffer.extend(said);
    Some(())
}

/// The time spelled here, if there is one.
fn read_time(spelled: &[u8]) -> Option<Time> {
    match spelled {
        b"-" => Some(Time::MinusInfinity),
        b"+" => Some(Time::PlusInfinity),
        _ => read_moment(spelled).map(Time::Moment),
    }
}

/// The bytes spelled here, two digits each, if all of them are.
fn read_bytes(spelled: &[u8]) -> Option<Vec<u8>> {
    let pairs = spelled.chunks(2);
    let bytes = pairs.map(|pair| match pair {
        [high, low] => Some(read_digit(*high)? << 4 | read_digit(*low)?),
        _ => None,
    });
    bytes.collect()
}

/// The value of one digit of a byte, if it is one.
fn read_digit(digit: u8) -> Option<u8> {
    match digit {
        b'0'..=b'9' => Some(digit - b'0'),
        b'a'..=b'f' => Some(digit - b'a' + 10),
        _ => None,
    }
}
