//! The door: a procap, a request, a moment and a state.

use super::state::State;
use super::text::{read_text, writable};
use crate::data::{Answer, Procap, Request};

/// The three numbers of a request as they come, which may be too great for one.
#[derive(Clone, Copy, PartialEq, Eq)]
pub struct Asked {
    pub who: u64,
    pub what: u64,
    pub right: u64,
}

impl From<Request> for Asked {
    /// The numbers of a request.
    fn from(request: Request) -> Asked {
        Asked {
            who: u64::from(request.who),
            what: u64::from(request.what),
            right: u64::from(request.right),
        }
    }
}

/// Opens to a procap that could be written, or says why not.
pub fn door(procap: &Procap, asked: Asked, moment: u64, state: &[u8]) -> Result<(), Answer> {
    if !writable(procap) {
        return Err(Answer::refused(12, 0));
    }
    press(procap, asked, moment, state)
}

/// Opens to a procap's text, or says why not.
pub fn door_on_text(text: &[u8], asked: Asked, moment: u64, state: &[u8]) -> Result<(), Answer> {
    press(&read_text(text)?, asked, moment, state)
}

/// Opens where moment and state are well formed and all is as the procap wants it.
fn press(procap: &Procap, asked: Asked, moment: u64, state: &[u8]) -> Result<(), Answer> {
    let state = State::at(moment, state)?;
    if asked != Asked::from(procap.request) {
        return Err(Answer::refused(8, 0));
    }
    if moment < procap.from || procap.to < moment {
        return Err(Answer::refused(9, 0));
    }
    for (index, fact) in (0..).zip(&procap.facts) {
        if !state.holds(fact, moment) {
            return Err(Answer::refused(10, index));
        }
    }
    Ok(())
}
