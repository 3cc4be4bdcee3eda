//! Procaps as values of fixed size: what they hold, and which of them cannot be written.

use second_opinion::data::{Answer, Fact, Procap, Request, Term, Time, LATEST};
use second_opinion::second::{read_value, value_of, VALUE_BYTES};

/// Where the count of facts stands, and where the first fact and its terms begin.
const COUNT: usize = 23;
const FIRST_FACT: usize = 24;
const FIRST_TERM: usize = 27;

/// How many bytes a fact takes.
const FACT_BYTES: usize = 39;

/// A procap with terms of every kind.
fn sample() -> Procap {
    let every_kind = vec![
        Term::Name(7),
        Term::When(Time::Moment(LATEST)),
        Term::When(Time::MinusInfinity),
        Term::When(Time::Ctime),
    ];
    let fact = |predicate, terms| Fact { predicate, terms };
    Procap {
        request: Request {
            who: 2,
            what: 7,
            right: 65_535,
        },
        from: 1000,
        to: LATEST,
        facts: vec![fact(200, every_kind), fact(201, Vec::new())],
    }
}

/// Whether the sample's value can be written after a change.
fn written_after(change: impl FnOnce(&mut Vec<u8>)) -> bool {
    let mut value = value_of(&sample());
    change(&mut value);
    let read = read_value(&value);
    assert!(matches!(
        read,
        Ok(_)
            | Err(Answer {
                number: 12,
                place: 0
            })
    ));
    read.is_ok()
}

#[test]
fn a_value_holds_its_procap() {
    let value = value_of(&sample());
    assert_eq!(value.len(), 648);
    assert_eq!(value.len(), VALUE_BYTES);
    assert_eq!(read_value(&value), Ok(sample()));
}

#[test]
fn no_other_length_or_version() {
    assert!(!written_after(|value| value.push(0)));
    assert!(!written_after(|value| value.truncate(647)));
    assert!(!written_after(|value| value[0] = 0));
    assert!(!written_after(|value| value[0] = 2));
}

#[test]
fn zeros_past_the_counts() {
    assert!(!written_after(|value| value[COUNT] = 1));
    assert!(!written_after(|value| value[COUNT] = 17));
    assert!(!written_after(|value| value[FIRST_FACT + 2] = 3));
    assert!(!written_after(|value| value[FIRST_FACT + 2] = 5));
    assert!(!written_after(|value| value[647] = 1));
    assert!(written_after(|value| value[COUNT] = 3));
}

#[test]
fn what_is_ignored() {
    // The value beside an infinity, and all but the last two bytes of a name, also of one past the counts.
    assert!(written_after(|value| value[FIRST_TERM + 18 + 8] = 1));
    assert!(written_after(|value| value[FIRST_TERM + 1] = 1));
    assert!(written_after(|value| value[647 - 2] = 1));
    assert!(written_after(|value| value[FIRST_TERM + 27] = 255));
}

#[test]
fn no_repeated_facts_and_no_moments_past_the_latest() {
    let repeat = |value: &mut Vec<u8>| {
        value.copy_within(FIRST_FACT..FIRST_FACT + FACT_BYTES, FIRST_FACT + FACT_BYTES)
    };
    assert!(!written_after(repeat));
    assert!(!written_after(|value| value[FIRST_TERM + 9 + 1] = 1));
    assert!(!written_after(|value| value[15] = 1));
    assert!(!written_after(|value| value[8] = 255));
}
