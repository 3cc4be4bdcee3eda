//! Lists of records that are too long or end within a record.

use super::both::both;
use crate::archive;
use crate::asking::Asking;
use crate::difference::Outcome;
use crate::wire::{hex, records_in_bytes, RECORD_BYTES};
use second_opinion::data::{Case, Record, Time};

/// A record that is malformed whatever the buffer.
const MALFORMED: Record = Record {
    principal: 1,
    from: Time::Ctime,
    to: Time::PlusInfinity,
    start: 0,
    length: 0,
};

/// Asks about a longer list of records, now and then.
pub fn ask(asking: &mut Asking) -> Outcome {
    match asking.random.below(40) {
        0 => with_a_tail(asking),
        1 => with_more(asking),
        _ => Ok(()),
    }
}

/// Asks about the case with some bytes after its last record, which count as one malformed record.
fn with_a_tail(asking: &mut Asking) -> Outcome {
    let length = 1 + asking.random.below(RECORD_BYTES as u64 - 1) as usize;
    let mut bytes = asking.records.clone();
    match bytes.get(..length) {
        Some(start) => bytes.extend(start.to_vec()),
        None => bytes.extend(vec![1; length]),
    }
    let mut case = asking.case.clone();
    case.records.push(MALFORMED);
    asking.coverage.asked("records with an incomplete tail");
    ask_both(asking, &case, &bytes)
}

/// Asks about the case with its records repeated to a little or far more than a list may have.
fn with_more(asking: &mut Asking) -> Outcome {
    let mut case = asking.case.clone();
    if case.records.is_empty() {
        case.records.push(MALFORMED);
    }
    let count = *asking
        .random
        .pick(&[31, 32, 33, 34, 64, 65, 256, 257, 2000]);
    let own = case.records.len();
    while case.records.len() < count {
        let again = case.records[case.records.len() % own];
        case.records.push(again);
    }
    let bytes = records_in_bytes(&case.records);
    asking.coverage.asked("more records than there were");
    ask_both(asking, &case, &bytes)
}

/// Asks verify and the direct check about a case with these bytes for its records.
fn ask_both(asking: &mut Asking, case: &Case, bytes: &[u8]) -> Outcome {
    let moment = asking.random.below(3000);
    let for_archive = archive::Case {
        records: bytes,
        ..asking.for_archive()
    };
    let words = |what: &str| format!("{what} with the records {}", hex(bytes));
    both(case, &for_archive, moment, words)
}
