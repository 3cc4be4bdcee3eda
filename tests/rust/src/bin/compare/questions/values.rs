//! Procaps as values: written, and at the door.

use crate::archive::{self, Returned};
use crate::asking::Asking;
use crate::coverage::Call;
use crate::difference::{promised, same, Outcome};
use crate::kept;
use crate::lent::written;
use crate::pressing::{some_press, some_request};
use crate::spoiled::spoiled;
use crate::wire::hex;
use second_opinion::data::Procap;
use second_opinion::second;

/// The name under which it is counted that demand 2 is asked of a value.
pub const DEMAND_2_OF_A_VALUE: &str = "demand 2 of a value";

/// Asks about a procap as a value, and about damaged values.
pub fn ask(asking: &mut Asking, procap: &Procap) -> Outcome {
    let value = second::value_of(procap);
    one_value(asking, procap, &value)?;
    for _ in 0..2 {
        let other = spoiled(&mut asking.random, &value);
        one_value(asking, procap, &other)?;
    }
    Ok(())
}

/// Asks about one value, which is a procap's or nearly so.
fn one_value(asking: &mut Asking, procap: &Procap, value: &[u8]) -> Outcome {
    let read = second::read_value(value);
    let text = read.as_ref().map_err(|refusal| *refusal);
    let text = text.and_then(second::text_of);
    let answer = written(
        &mut asking.random,
        &text,
        |out| archive::write(value, out),
        || format!("write of value {}", hex(value)),
    )?;
    asking.coverage.asked("value written");
    asking.coverage.answered(Call::Write, answer.number);
    let kept = kept::demand_2_writing(value);
    asking.coverage.asked(DEMAND_2_OF_A_VALUE);
    let question = || format!("demand 2 of value {}", hex(value));
    promised(kept, question, "yes", kept)?;
    let (moment, state) = some_press(&mut asking.random, procap);
    let request = some_request(&mut asking.random, procap.request);
    let answer = match &read {
        Ok(procap) => second::door(procap, request, moment, &state),
        Err(refusal) => *refusal,
    };
    let returned = archive::door_on_value(value, request, moment, &state);
    asking.coverage.asked("door on a value");
    asking.coverage.answered(Call::DoorOnValue, answer.number);
    same(&Returned::plain(answer), &returned, || {
        let (value, state) = (hex(value), hex(&state));
        format!("door on value {value}, asked {request:?} at {moment} in state {state}")
    })
}
