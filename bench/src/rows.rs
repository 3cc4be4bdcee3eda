//! The rows of the table: presses and proofs, small, usual and the largest that are allowed.

use crate::archive;
use crate::chains::{chained, name_of, Asks, Lent};
use crate::examples::example;
use crate::measure::Calls;
use crate::state::opening_state;
use crate::wire::records_in_bytes;
use crate::wire_pairs::pairs_in_bytes;
use second_opinion::data::{Answer, Case, Procap};
use second_opinion::generate::{at_a_limit, valid, Random};
use second_opinion::second::{self, NoWatch};
use std::hint::black_box;

/// What is measured.
#[derive(Clone, Copy)]
enum What {
    DoorOnValue,
    DoorOnText,
    Verify,
}

/// Where the case of a row comes from.
#[derive(Clone, Copy)]
enum From {
    Example(&'static str),
    Valid(u64),
    AtALimit(u64),
    Chained(Asks, Lent),
}

/// The rows: presses with one fact and with sixteen; case P, three proofs of 30 steps, the deepest proofs and the longest, all with no pairs; then
/// chains of pairs, beside the same with none. The seeds are the first that give such proofs and are issued.
const PLANS: [(What, From); 21] = [
    (What::DoorOnValue, From::Example("p")),
    (What::DoorOnText, From::Example("p")),
    (What::DoorOnValue, From::Example("sixteen_facts")),
    (What::DoorOnText, From::Example("sixteen_facts")),
    (What::Verify, From::Example("p")),
    (What::Verify, From::Valid(1081)),
    (What::Verify, From::Valid(1308)),
    (What::Verify, From::Valid(1850)),
    (What::Verify, From::Example("thirty_implications")),
    (What::Verify, From::Example("thirty_assumptions")),
    (What::Verify, From::Example("thirty_cases")),
    (What::Verify, From::Example("sixteen_facts")),
    (What::Verify, From::AtALimit(8)),
    (What::Verify, From::AtALimit(16)),
    (What::Verify, From::AtALimit(18)),
    (What::Verify, From::Chained(Asks::Once, Lent::None)),
    (What::Verify, From::Chained(Asks::Once, Lent::BottomFirst)),
    (What::Verify, From::Chained(Asks::Once, Lent::TopFirst)),
    (What::Verify, From::Chained(Asks::Often, Lent::None)),
    (What::Verify, From::Chained(Asks::Often, Lent::BottomFirst)),
    (What::Verify, From::Chained(Asks::Often, Lent::TopFirst)),
];

/// A row: what is measured, and on which case.
pub struct Row {
    what: What,
    from: From,
    case: Case,
    records: Vec<u8>,
    pairs: Vec<u8>,
    procap: Procap,
    text: Vec<u8>,
    state: Vec<u8>,
}

impl Row {
    /// The row of this number, if there is one.
    pub fn number(index: usize) -> Option<Row> {
        let (what, from) = *PLANS.get(index)?;
        let case = from.case();
        let procap = second::verify(&case, &mut NoWatch).expect("the case is issued");
        Some(Row {
            what,
            from,
            records: records_in_bytes(&case.records),
            pairs: pairs_in_bytes(&case.pairs),
            text: second::text_of(&procap).expect("what is issued can be written"),
            state: opening_state(&procap),
            case,
            procap,
        })
    }

    /// What the row is called.
    pub fn name(&self) -> String {
        let on = self.from.name();
        match self.what {
            What::DoorOnValue => {
                format!("door on a value, {on}, facts: {}", self.procap.facts.len())
            }
            What::DoorOnText => format!("door on a text, {on}, facts: {}", self.procap.facts.len()),
            What::Verify => format!(
                "verify, {on}: {} bytes, {} steps",
                self.case.proof.len(),
                steps_of(&self.case)
            ),
        }
    }

    /// Calls of the proved checker.
    pub fn proved(&self) -> Calls<'_> {
        let request = self.procap.request;
        let asked = [request.who, request.what, request.right].map(u64::from);
        let (text, from, state) = (&self.text, self.procap.from, &self.state);
        match self.what {
            What::DoorOnValue => Box::new(move |calls| {
                assert_eq!(archive::presses(text, request, from, state, calls), calls)
            }),
            What::DoorOnText => Box::new(move |calls| {
                for _ in 0..calls {
                    let answer = archive::door(black_box(text), asked, from, state);
                    assert_eq!(answer, Answer::GRANTED);
                }
            }),
            What::Verify => Box::new(move |calls| {
                let mut out = [0; 1223];
                for _ in 0..calls {
                    let case = archive::Case {
                        request,
                        records: black_box(&self.records),
                        buffer: &self.case.buffer,
                        pairs: &self.pairs,
                        proof: &self.case.proof,
                    };
                    let returned = archive::verify(&case, &mut out);
                    assert_eq!(returned.answer, Answer::GRANTED);
                }
            }),
        }
    }

    /// The same calls of the second implementation.
    pub fn second(&self) -> Calls<'_> {
        let request = self.procap.request;
        let [who, what, right] = [request.who, request.what, request.right].map(u64::from);
        let (procap, text, state) = (&self.procap, &self.text, &self.state);
        match self.what {
            What::DoorOnValue => Box::new(move |calls| {
                for _ in 0..calls {
                    let answer = second::door(black_box(procap), request, procap.from, state);
                    assert_eq!(answer, Answer::GRANTED);
                }
            }),
            What::DoorOnText => Box::new(move |calls| {
                for _ in 0..calls {
                    let answer =
                        second::door_on_text(black_box(text), who, what, right, procap.from, state);
                    assert_eq!(answer, Answer::GRANTED);
                }
            }),
            What::Verify => Box::new(move |calls| {
                let mut out = [0; 1223];
                for _ in 0..calls {
                    let issued = second::verify(black_box(&self.case), &mut NoWatch).unwrap();
                    assert_eq!(second::write_text(&issued, &mut out).0, Answer::GRANTED);
                }
            }),
        }
    }
}

impl From {
    /// The case itself.
    fn case(self) -> Case {
        match self {
            From::Example(name) => example(name),
            From::Valid(seed) => valid(&mut Random::new(seed)),
            From::AtALimit(seed) => at_a_limit(&mut Random::new(seed)),
            From::Chained(asks, lent) => chained(asks, lent),
        }
    }

    /// What the case is called.
    fn name(self) -> String {
        match self {
            From::Example(name) => name.to_string(),
            From::Valid(seed) => format!("made up (seed {seed})"),
            From::AtALimit(seed) => format!("at a limit (seed {seed})"),
            From::Chained(asks, lent) => name_of(asks, lent),
        }
    }
}

/// How many steps are walked for a case.
fn steps_of(case: &Case) -> u64 {
    struct Steps(u64);
    impl second::Watch for Steps {
        fn step(&mut self, _tag: u8) {
            self.0 += 1;
        }
    }
    let mut steps = Steps(0);
    let _ = second::verify(case, &mut steps);
    steps.0
}

/// All rows, in turn.
pub fn rows() -> impl Iterator<Item = Row> {
    (0..).map_while(Row::number)
}
