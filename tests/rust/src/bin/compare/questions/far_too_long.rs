//! Lengths so far above their limits that they look short in two bytes.

use crate::archive::{self, Returned};
use crate::asking::Asking;
use crate::difference::{same, Outcome};
use crate::wire::state_in_bytes;
use second_opinion::data::{Answer, Case, Procap};
use second_opinion::second::{self, NoWatch};

/// How many bytes are too many.
const MANY: usize = 65_536;

/// Asks about a proof, a state, a text and a value of that many bytes more, now and then.
pub fn ask(asking: &mut Asking, procap: &Procap) -> Outcome {
    if !asking.random.one_in(300) {
        return Ok(());
    }
    asking.coverage.asked("65,536 bytes too many");
    long_proof(asking)?;
    long_state(asking, procap)?;
    long_text_and_value(procap)
}

/// The bytes with that many bytes more, which say the same again and again.
fn lengthened(bytes: &[u8], filling: &[u8]) -> Vec<u8> {
    let mut long = bytes.to_vec();
    long.extend(filling.iter().cycle().take(MANY));
    long
}

/// Asks about the case with a longer proof.
fn long_proof(asking: &Asking) -> Outcome {
    let case = Case {
        proof: lengthened(&asking.case.proof, &[0x25]),
        ..asking.case.clone()
    };
    let for_archive = archive::Case {
        proof: &case.proof,
        ..asking.for_archive()
    };
    let answer = Answer::of(&second::verify(&case, &mut NoWatch));
    let returned = archive::verify(&for_archive, &mut [0; 1300]);
    same(&Returned::plain(answer), &returned, || {
        "verify, long proof".to_string()
    })
}

/// Asks for a press in a longer state, whose facts are all well formed.
fn long_state(asking: &Asking, procap: &Procap) -> Outcome {
    let state = lengthened(&state_in_bytes(&[]), &[0, 200, 1, 2]);
    let moment = procap.from;
    let answer = second::direct(asking.case, moment, &state, &mut NoWatch);
    let returned = archive::direct(&asking.for_archive(), moment, &state);
    let question = || format!("direct check at {moment}, long state");
    same(&Returned::plain(answer), &returned, question)?;
    let value = second::value_of(procap);
    let answer = match second::read_value(&value) {
        Ok(procap) => second::door(&procap, procap.request, moment, &state),
        Err(refusal) => refusal,
    };
    let returned = archive::door_on_value(&value, procap.request, moment, &state);
    let question = || format!("door at {moment}, long state");
    same(&Returned::plain(answer), &returned, question)
}

/// Asks about a procap's text and its value, both longer.
fn long_text_and_value(procap: &Procap) -> Outcome {
    let text = lengthened(&second::text_of(procap).unwrap_or_default(), b"\n");
    let answer = Answer::of(&second::read_text(&text));
    let returned = archive::rewrite(&text, &mut [0; 1300]);
    same(&Returned::plain(answer), &returned, || {
        "rewrite, long text".to_string()
    })?;
    let value = lengthened(&second::value_of(procap), &[0]);
    let answer = Answer::of(&second::read_value(&value));
    let returned = archive::write(&value, &mut [0; 1300]);
    same(&Returned::plain(answer), &returned, || {
        "write, long value".to_string()
    })
}
