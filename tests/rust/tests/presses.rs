//! The presses that docs/SCOPE.md lists, and the one that is run.

mod by_hand;

use by_hand::{bytes, Said, REQUEST};
use second_opinion::data::{Answer, Case, Fact, Procap, Request, Term, Time, LATEST};
use second_opinion::second::{direct, door, door_on_text, text_of, verify, write_text, NoWatch};

/// The formula of case P's certificate.
const SAID: &str = "13121800c801000007170064030500000007000009";

/// The formula of the run case's own certificate.
const SAID_FOR_ALL_TIMES: &str = "14121800c902000007050017006403000002000007000009";

/// The proof of case P.
const PROOF: &str = "2a262700000221002c0404";

/// The state where 200(7) stands.
const LOADED: &str = "00c801000007";

/// A case with certificates of 1 that say these formulas, each on its interval.
fn case(said: &[(Time, Time, &str)], proof: &str) -> Case {
    let of_1 = |(from, to, formula): &(Time, Time, _)| -> Said { (1, (*from, *to), *formula) };
    let said: Vec<Said> = said.iter().map(of_1).collect();
    by_hand::case(&said, proof)
}

/// Case P with another proof.
fn p_with(proof: &str) -> Case {
    case(&[(Time::Moment(1000), Time::Moment(2000), SAID)], proof)
}

/// What verify says to case P with another proof.
fn verified(proof: &str) -> Result<Procap, Answer> {
    verify(&p_with(proof), &mut NoWatch)
}

/// The procap of 200(7) on these moments.
fn loaded_procap(from: u64, to: u64) -> Procap {
    Procap {
        request: REQUEST,
        from,
        to,
        facts: vec![Fact {
            predicate: 200,
            terms: vec![Term::Name(7)],
        }],
    }
}

/// A refusal of verify.
fn refused(number: u64, place: u64) -> Result<Procap, Answer> {
    Err(Answer::refused(number, place))
}

/// The nine proofs for case P.
#[test]
fn proofs_for_case_p() {
    assert_eq!(verified(PROOF), Ok(loaded_procap(1000, 2000)));
    let at_1500 = "2a262700000221002c0100000005dc0100000005dc";
    assert_eq!(verified(at_1500), Ok(loaded_procap(1500, 1500)));
    let from_1500_to_1400 = "2a262700000221002c0100000005dc010000000578";
    assert_eq!(verified(from_1500_to_1400), refused(5, 0));
    let from_999_to_2000 = "2a262700000221002c0100000003e70100000007d0";
    assert_eq!(verified(from_999_to_2000), refused(4, 1));
    let for_3 = "2a262700000321002c0404";
    assert_eq!(verified(for_3), refused(3, 1));
    let without_says_in = "262700000221002c0404";
    assert_eq!(verified(without_says_in), refused(3, 5));
    assert_eq!(verified("25"), refused(3, 0));
    assert_eq!(verified(""), refused(2, 0));
    assert_eq!(verified(&format!("{PROOF}00")), refused(2, 0));
}

/// The six presses with case P's procap, handed over as a value and as its text.
#[test]
fn presses_with_the_procap_of_p() {
    let procap = verified(PROOF).expect("P is issued");
    let text = text_of(&procap).expect("P's procap has a text");
    let another = Request { who: 3, ..REQUEST };
    let presses = [
        (REQUEST, 1000, LOADED, Answer::GRANTED),
        (REQUEST, 2000, LOADED, Answer::GRANTED),
        (REQUEST, 999, LOADED, Answer::refused(9, 0)),
        (REQUEST, 2001, LOADED, Answer::refused(9, 0)),
        (REQUEST, 1500, "", Answer::refused(10, 0)),
        (another, 1500, LOADED, Answer::refused(8, 0)),
    ];
    for (request, moment, state, answer) in presses {
        let state = bytes(state);
        assert_eq!(door(&procap, request, moment, &state), answer);
        let [who, what, right] = [request.who, request.what, request.right].map(u64::from);
        let on_text = door_on_text(&text, who, what, right, moment, &state);
        assert_eq!(on_text, answer);
    }
}

/// The direct check of case P says at each press what the door says, with the step's offset for a place.
#[test]
fn direct_checks_of_case_p() {
    let case = p_with(PROOF);
    let answer = |moment, state| direct(&case, moment, &bytes(state), &mut NoWatch);
    assert_eq!(answer(1000, LOADED), Answer::GRANTED);
    assert_eq!(answer(2000, LOADED), Answer::GRANTED);
    assert_eq!(answer(999, LOADED), Answer::refused(4, 6));
    assert_eq!(answer(2001, LOADED), Answer::refused(4, 6));
    assert_eq!(answer(1500, ""), Answer::refused(10, 8));
    assert_eq!(answer(LATEST + 1, "00"), Answer::refused(11, 0));
    assert_eq!(answer(LATEST, "00"), Answer::refused(7, 0));
}

/// The run case: ctime in a fact, over the whole clock, and the door looks for the moment.
#[test]
fn ctime_is_put_into_a_fact_at_the_door() {
    let said = [
        (Time::Moment(1000), Time::Moment(2000), SAID),
        (Time::MinusInfinity, Time::PlusInfinity, SAID_FOR_ALL_TIMES),
    ];
    let run = case(&said, "2a26270421012c0203");
    let procap = verify(&run, &mut NoWatch).expect("the run case is issued");
    let text =
        "procap=1\nwho=2\nwhat=7\nright=9\nfrom=0\nto=1099511627775\nfacts=1\nfact=201 n7 c\n";
    assert_eq!(text_of(&procap), Ok(text.as_bytes().to_vec()));
    let logged = bytes("00c9020000070100000005dc");
    assert_eq!(door(&procap, REQUEST, 1500, &logged), Answer::GRANTED);
    let missing = Answer::refused(10, 0);
    assert_eq!(door(&procap, REQUEST, 1501, &logged), missing);
    assert_eq!(direct(&run, 1500, &logged, &mut NoWatch), Answer::GRANTED);
    let missing = Answer::refused(10, 6);
    assert_eq!(direct(&run, 1501, &logged, &mut NoWatch), missing);
}

/// The writer says that a procap has no text before it says that the buffer is short, and writes nothing then.
#[test]
fn the_writer_refuses_without_writing() {
    let procap = loaded_procap(1000, 2000);
    let length = text_of(&procap).expect("it has a text").len();
    let mut out = vec![7; length + 2];
    let turned = loaded_procap(2000, 1000);
    let no_text = (Answer::refused(12, 0), 0);
    assert_eq!(write_text(&turned, &mut []), no_text);
    let short = (Answer::refused(13, 0), 0);
    assert_eq!(write_text(&procap, &mut out[..length - 1]), short);
    assert!(out.iter().all(|byte| *byte == 7));
    let written = (Answer::GRANTED, length);
    assert_eq!(write_text(&procap, &mut out), written);
    assert_eq!(out[length..], [7, 7]);
}
