//! Presses: the direct check and the door at many moments, in many states, and what joins them.

use super::pairs;
use crate::archive::{self, Returned};
use crate::asking::Asking;
use crate::coverage::Call;
use crate::difference::{promised, same, Difference, Outcome};
use crate::kept;
use crate::moments::{all_moments, some_moments};
use crate::states::{all_states, some_states};
use crate::wire::hex;
use second_opinion::data::{Answer, Procap, LATEST};
use second_opinion::second;

/// Of every so many cases one is also put to the call that is demand 3.
const DEMAND_3_EACH: u64 = 4;

/// Where demand 3 is asked, by the names under which that is counted.
pub const DEMAND_3_WHERE: [&str; 3] = [
    "demand 3 where nothing is issued",
    "demand 3 where the door stays shut",
    "demand 3 where the door opens",
];

/// How many moments and states a normal run has for each case.
const MOMENTS: usize = 10;
const STATES: usize = 4;

/// A procap in all its forms.
struct Shown<'a> {
    procap: &'a Procap,
    text: Vec<u8>,
    value: Vec<u8>,
}

/// One press.
#[derive(Clone, Copy)]
struct Press<'a> {
    moment: u64,
    state: &'a [u8],
}

impl Press<'_> {
    /// The press in words.
    fn words(&self, what: &str) -> String {
        format!("{what} at {} in state {}", self.moment, hex(self.state))
    }
}

/// Asks about presses on a case, which verify has answered.
pub fn ask(asking: &mut Asking, issued: &Result<Procap, Answer>) -> Outcome {
    let shown = issued.as_ref().ok().map(|procap| Shown {
        procap,
        text: second::text_of(procap).unwrap_or_default(),
        value: second::value_of(procap),
    });
    let malformed = matches!(issued, Err(refusal) if matches!(refusal.number, 1 | 2 | 21));
    let all = asking.options.all_presses;
    let candidates = all_moments(asking.case, issued.as_ref().ok());
    let moments = match (all, malformed) {
        (true, _) => candidates,
        (false, true) => some_moments(&mut asking.random, &candidates, &[], 2),
        (false, false) => {
            let edges = edges(issued);
            some_moments(&mut asking.random, &candidates, &edges, MOMENTS)
        }
    };
    for moment in moments {
        let wanted = second::facts_wanted(asking.case, moment.min(LATEST));
        let states = match (all, moment <= LATEST) {
            (true, _) => all_states(&mut asking.random, &wanted),
            (false, true) => some_states(&mut asking.random, &wanted, STATES - 1),
            (false, false) => some_states(&mut asking.random, &wanted, 1),
        };
        for state in &states {
            press(asking, Press { moment, state }, shown.as_ref())?;
        }
    }
    Ok(())
}

/// The moments at which a procap begins and ends to open, and their neighbours outside.
fn edges(issued: &Result<Procap, Answer>) -> Vec<u64> {
    let Ok(Procap { from, to, .. }) = issued else {
        return Vec::new();
    };
    vec![from.saturating_sub(1), *from, *to, to + 1]
}

/// Asks about one press.
fn press(asking: &mut Asking, press: Press, shown: Option<&Shown>) -> Outcome {
    let direct = direct(asking, press)?;
    let accepted = direct == Answer::GRANTED;
    if asking.index.is_multiple_of(DEMAND_3_EACH) {
        demand_3(asking, press, shown.is_some(), accepted)?;
    }
    let Some(shown) = shown else {
        let wanted = "no acceptance, as verify refused";
        let question = || press.words("direct check of a refused case");
        return promised(!accepted, question, wanted, direct);
    };
    let opened = door(asking, press, shown)?;
    let wanted = "the door opens exactly when the direct check accepts";
    let question = || press.words("direct check and door");
    let joined = accepted == (opened == Answer::GRANTED);
    promised(joined, question, wanted, (direct, opened))
}

/// Asks the call that is demand 3 whether it is kept at a press.
fn demand_3(asking: &mut Asking, press: Press, issued: bool, accepted: bool) -> Outcome {
    let kept = kept::demand_3(&asking.for_archive(), press.moment, press.state);
    asking.coverage.asked(match (issued, accepted) {
        (false, _) => DEMAND_3_WHERE[0],
        (true, false) => DEMAND_3_WHERE[1],
        (true, true) => DEMAND_3_WHERE[2],
    });
    pairs::note_demand_3(asking);
    promised(kept, || press.words("demand 3"), "yes", kept)
}

/// What both direct checks answer.
fn direct(asking: &mut Asking, press: Press) -> Result<Answer, Difference> {
    let Press { moment, state } = press;
    let answer = second::direct(asking.case, moment, state, &mut asking.coverage.direct);
    let returned = archive::direct(&asking.for_archive(), moment, state);
    asking.coverage.asked("direct check");
    asking.coverage.answered(Call::Direct, answer.number);
    same(&Returned::plain(answer), &returned, || {
        press.words("direct check")
    })?;
    Ok(answer)
}

/// What all doors answer to a procap that was issued.
fn door(asking: &mut Asking, press: Press, shown: &Shown) -> Result<Answer, Difference> {
    let Press { moment, state } = press;
    let request = asking.case.request;
    let asked = [request.who, request.what, request.right].map(u64::from);
    let answer = second::door(shown.procap, request, moment, state);
    let on_text = archive::door(&shown.text, asked, moment, state);
    let on_value = archive::door_on_value(&shown.value, request, moment, state);
    asking.coverage.asked("door on an issued procap");
    asking.coverage.answered(Call::DoorOnText, answer.number);
    asking.coverage.answered(Call::DoorOnValue, answer.number);
    same(&answer, &on_text, || press.words("door on text"))?;
    same(&Returned::plain(answer), &on_value, || {
        press.words("door on value")
    })?;
    Ok(answer)
}
