//! Cases and states in bytes, and bytes in hex.

use crate::wire_pairs::{pairs_from_bytes, pairs_in_bytes};
use second_opinion::data::{Case, Fact, Record, Request, Term, Time};
use second_opinion::generate::Random;

/// How many bytes a record has.
pub const RECORD_BYTES: usize = 36;

/// The kinds of a record's times, where all that are not listed are ctime.
const MOMENT: u8 = 1;
const MINUS_INFINITY: u8 = 2;
const PLUS_INFINITY: u8 = 3;
const CTIME: u8 = 4;

/// Bytes in lower-case hex.
pub fn hex(bytes: &[u8]) -> String {
    bytes.iter().map(|byte| format!("{byte:02x}")).collect()
}

/// The bytes that hex spells, if it does.
fn unhex(spelled: &str) -> Option<Vec<u8>> {
    let digits: Option<Vec<u32>> = spelled.chars().map(|digit| digit.to_digit(16)).collect();
    let digits = digits?;
    let pairs = digits.chunks_exact(2);
    let whole = pairs.remainder().is_empty();
    let bytes = pairs.map(|pair| (pair[0] << 4 | pair[1]) as u8).collect();
    whole.then_some(bytes)
}

/// The bytes of a list of records.
pub fn records_in_bytes(records: &[Record]) -> Vec<u8> {
    let mut bytes = Vec::with_capacity(records.len() * RECORD_BYTES);
    for record in records {
        bytes.extend(record.principal.to_be_bytes());
        add_time(&mut bytes, record.from);
        add_time(&mut bytes, record.to);
        bytes.extend(record.start.to_be_bytes());
        bytes.extend(record.length.to_be_bytes());
    }
    bytes
}

/// Adds a record's time.
fn add_time(bytes: &mut Vec<u8>, time: Time) {
    let (kind, value) = match time {
        Time::Moment(moment) => (MOMENT, moment),
        Time::MinusInfinity => (MINUS_INFINITY, 0),
        Time::PlusInfinity => (PLUS_INFINITY, 0),
        Time::Ctime => (CTIME, 0),
    };
    bytes.push(kind);
    bytes.extend(value.to_be_bytes());
}

/// Changes what records in bytes say in more than one way: the value beside an infinity or ctime, and ctime's kind.
pub fn respell(random: &mut Random, records: &mut [u8]) {
    for record in records.chunks_exact_mut(RECORD_BYTES) {
        for place in [2, 11] {
            let time = &mut record[place..place + 9];
            if time[0] != MOMENT {
                time[1..].copy_from_slice(&random.next().to_be_bytes());
            }
            if time[0] == CTIME {
                time[0] = *random.pick(&[0, 4, 5, 127, 128, 255]);
            }
        }
    }
}

/// The records that these bytes hold, if all of them are whole.
fn records_from_bytes(bytes: &[u8]) -> Option<Vec<Record>> {
    let chunks = bytes.chunks_exact(RECORD_BYTES);
    let whole = chunks.remainder().is_empty();
    let number = |bytes: &[u8]| {
        bytes
            .iter()
            .fold(0, |sum, byte| sum << 8 | u64::from(*byte))
    };
    let time = |bytes: &[u8]| match bytes[0] {
        MOMENT => Time::Moment(number(&bytes[1..])),
        MINUS_INFINITY => Time::MinusInfinity,
        PLUS_INFINITY => Time::PlusInfinity,
        _ => Time::Ctime,
    };
    let records = chunks.map(|record| Record {
        principal: number(&record[..2]) as u16,
        from: time(&record[2..11]),
        to: time(&record[11..20]),
        start: number(&record[20..28]),
        length: number(&record[28..]),
    });
    whole.then(|| records.collect())
}

/// A case on one line: the request, the records, the buffer, the pairs, the proof.
pub fn case_in_words(case: &Case) -> String {
    let Request { who, what, right } = case.request;
    let records = hex(&records_in_bytes(&case.records));
    let [buffer, pairs, proof] =
        [&case.buffer, &pairs_in_bytes(&case.pairs), &case.proof].map(|bytes| hex(bytes));
    format!("{who},{what},{right}/{records}/{buffer}/{pairs}/{proof}")
}

/// The case that such a line spells, if it does.
pub fn case_from_words(words: &str) -> Option<Case> {
    let parts: Vec<&str> = words.trim().split('/').collect();
    let [request, records, buffer, pairs, proof] = parts[..] else {
        return None;
    };
    let names: Option<Vec<u16>> = request.split(',').map(|name| name.parse().ok()).collect();
    let [who, what, right] = names?[..] else {
        return None;
    };
    Some(Case {
        request: Request { who, what, right },
        records: records_from_bytes(&unhex(records)?)?,
        buffer: unhex(buffer)?,
        pairs: pairs_from_bytes(&unhex(pairs)?),
        proof: unhex(proof)?,
    })
}

/// The bytes of a state in which these facts stand, none of them with ctime.
pub fn state_in_bytes(facts: &[Fact]) -> Vec<u8> {
    let mut bytes = Vec::new();
    for fact in facts {
        bytes.extend(fact.predicate.to_be_bytes());
        bytes.push(fact.terms.len() as u8);
        for term in &fact.terms {
            add_term(&mut bytes, *term);
        }
    }
    bytes
}

/// Adds a term of a state.
fn add_term(bytes: &mut Vec<u8>, term: Term) {
    match term {
        Term::Name(name) => {
            bytes.push(0);
            bytes.extend(name.to_be_bytes());
        }
        Term::When(Time::Moment(moment)) => {
            bytes.push(1);
            bytes.extend(&moment.to_be_bytes()[3..]);
        }
        Term::When(Time::MinusInfinity) => bytes.push(2),
        Term::When(Time::PlusInfinity) => bytes.push(3),
        Term::When(Time::Ctime) => bytes.push(4),
    }
}
