//! Lent buffers: what a call writes into them, and what it leaves alone.

use crate::archive::Returned;
use crate::difference::{same, Difference};
use crate::wire::hex;
use second_opinion::data::Answer;
use second_opinion::generate::Random;

/// More room than any text needs.
const AMPLE: usize = 1300;

/// How many bytes stand behind a lent buffer, which are not lent.
const BEHIND: usize = 16;

/// What is in a buffer before anybody writes.
fn before(length: usize, salt: u8) -> Vec<u8> {
    (0..length)
        .map(|place| (place as u8).wrapping_mul(29) ^ salt)
        .collect()
}

/// How much room to lend for a text of some length.
fn room_for(random: &mut Random, length: usize) -> usize {
    match random.below(10) {
        0 => length,
        1 => length.saturating_sub(1),
        2 => *random.pick(&[0, 1, length / 2, length + 1]),
        _ => AMPLE,
    }
}

/// What should come back from writing into so much room.
fn expected(wanted: &Result<Vec<u8>, Answer>, room: usize) -> Result<&[u8], Answer> {
    match wanted {
        Ok(text) if text.len() > room => Err(Answer::refused(13, 0)),
        Ok(text) => Ok(text),
        Err(refusal) => Err(*refusal),
    }
}

/// The answer of a call that writes a text, when answer, length and the whole buffer are as wanted.
pub fn written(
    random: &mut Random,
    wanted: &Result<Vec<u8>, Answer>,
    call: impl FnOnce(&mut [u8]) -> Returned,
    question: impl Fn() -> String,
) -> Result<Answer, Difference> {
    let length = wanted.as_ref().map_or(20, Vec::len);
    let (room, salt) = (room_for(random, length), random.next() as u8);
    let mut right = before(room + BEHIND, salt);
    let mut lent = right.clone();
    let returned = call(&mut lent[..room]);
    let outcome = expected(wanted, room);
    let text = outcome.unwrap_or_default();
    right[..text.len()].copy_from_slice(text);
    let should = Returned {
        answer: Answer::of(&outcome),
        length: text.len() as u64,
    };
    same(&should, &returned, || {
        format!("{}, room {room}", question())
    })?;
    if right != lent {
        let about = || format!("{}, room {room}: the buffer afterwards", question());
        same(&hex(&right), &hex(&lent), about)?;
    }
    Ok(should.answer)
}
