//! The procap text: read and written again, and at the door.

use crate::archive;
use crate::asking::Asking;
use crate::coverage::Call;
use crate::difference::{promised, same, Outcome};
use crate::kept;
use crate::lent::written;
use crate::pressing::{some_asked, some_press};
use crate::wire::hex;
use second_opinion::data::{Answer, Procap, Request};
use second_opinion::generate::damaged_bytes;
use second_opinion::second;

/// The name under which it is counted that demand 2 is asked of a text.
pub const DEMAND_2_OF_A_TEXT: &str = "demand 2 of a text";

/// How many equal presses are made in a row at most.
const MOST_PRESSES: u64 = 5;

/// Asks about a procap's text and about damaged ones.
pub fn ask(asking: &mut Asking, procap: &Procap) -> Outcome {
    let Ok(text) = second::text_of(procap) else {
        return Ok(());
    };
    one_text(asking, procap, &text)?;
    let mut other = text;
    for _ in 0..2 {
        other = damaged_bytes(&mut asking.random, &other);
        one_text(asking, procap, &other)?;
    }
    Ok(())
}

/// Asks about one text, which is a procap's or nearly so.
fn one_text(asking: &mut Asking, procap: &Procap, text: &[u8]) -> Outcome {
    rewrite(asking, text)?;
    door(asking, procap, text)?;
    match asking.random.one_in(8) {
        true => presses(asking, procap, text),
        false => Ok(()),
    }
}

/// Asks what comes of reading a text and writing it again.
fn rewrite(asking: &mut Asking, text: &[u8]) -> Outcome {
    let again = second::read_text(text).and_then(|procap| second::text_of(&procap));
    let answer = written(
        &mut asking.random,
        &again,
        |out| archive::rewrite(text, out),
        || format!("rewrite of text {}", hex(text)),
    )?;
    asking.coverage.asked("text read and written again");
    asking.coverage.answered(Call::Rewrite, answer.number);
    let kept = kept::demand_2_reading(text);
    asking.coverage.asked(DEMAND_2_OF_A_TEXT);
    let question = || format!("demand 2 of text {}", hex(text));
    promised(kept, question, "yes", kept)
}

/// Asks what the door answers to a text.
fn door(asking: &mut Asking, procap: &Procap, text: &[u8]) -> Outcome {
    let asked = some_asked(&mut asking.random, procap.request);
    let (moment, state) = some_press(&mut asking.random, procap);
    let [who, what, right] = asked;
    let answer = second::door_on_text(text, who, what, right, moment, &state);
    let returned = archive::door(text, asked, moment, &state);
    asking.coverage.asked("door on a text");
    asking.coverage.answered(Call::DoorOnText, answer.number);
    same(&answer, &returned, || {
        let (text, state) = (hex(text), hex(&state));
        format!("door on text {text}, asked {asked:?} at {moment} in state {state}")
    })
}

/// Asks how many equal presses in a row open.
fn presses(asking: &mut Asking, procap: &Procap, text: &[u8]) -> Outcome {
    let Request { who, what, right } = procap.request;
    let (moment, state) = some_press(&mut asking.random, procap);
    let count = asking.random.below(MOST_PRESSES + 1);
    let [w, x, r] = [who, what, right].map(u64::from);
    let answer = second::door_on_text(text, w, x, r, moment, &state);
    let open = match answer {
        Answer::GRANTED => count,
        _ => 0,
    };
    let returned = archive::presses(text, procap.request, moment, &state, count);
    asking.coverage.asked("presses in a row");
    same(&open, &returned, || {
        let (text, state) = (hex(text), hex(&state));
        format!("{count} presses on text {text} at {moment} in state {state}")
    })
}
