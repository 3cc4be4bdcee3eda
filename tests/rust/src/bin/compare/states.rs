//! States for a press: the facts it wants, fewer, more, in another order, and damaged.

use crate::wire::state_in_bytes;
use second_opinion::data::{Fact, Term, Time};
use second_opinion::generate::{damaged_bytes, Random};

/// How long a state can be.
const MOST_BYTES: usize = 4096;

/// A fact as it stands at a moment.
pub fn fact_at(fact: &Fact, moment: u64) -> Fact {
    let put = |term: &Term| match term {
        Term::When(Time::Ctime) => Term::When(Time::Moment(moment)),
        other => *other,
    };
    Fact {
        predicate: fact.predicate,
        terms: fact.terms.iter().map(put).collect(),
    }
}

/// The states to press in when these facts are wanted: with all of them first, then as many others as asked for.
pub fn some_states(random: &mut Random, wanted: &[Fact], others: usize) -> Vec<Vec<u8>> {
    let mut states = vec![state_in_bytes(wanted)];
    for _ in 0..others {
        states.push(another_state(random, wanted));
    }
    states
}

/// Every kind of state when these facts are wanted: with all, with none, and without each one.
pub fn all_states(random: &mut Random, wanted: &[Fact]) -> Vec<Vec<u8>> {
    let mut states = vec![state_in_bytes(wanted), Vec::new()];
    for missing in 0..wanted.len() {
        states.push(without(wanted, missing));
    }
    states.push(rearranged(random, wanted));
    states.push(filled_up(random, wanted));
    states.push(damaged_bytes(random, &states[0]));
    states
}

/// One state that is not just the facts wanted.
fn another_state(random: &mut Random, wanted: &[Fact]) -> Vec<u8> {
    match random.below(8) {
        0 => Vec::new(),
        1..=3 if !wanted.is_empty() => {
            let missing = random.below(wanted.len() as u64) as usize;
            without(wanted, missing)
        }
        4 => damaged_bytes(random, &state_in_bytes(wanted)),
        5 if random.one_in(4) => filled_up(random, wanted),
        _ => rearranged(random, wanted),
    }
}

/// The state that lacks one of the facts.
fn without(wanted: &[Fact], missing: usize) -> Vec<u8> {
    let mut facts = wanted.to_vec();
    facts.remove(missing);
    state_in_bytes(&facts)
}

/// The facts in another order, some of them twice, with others among them.
fn rearranged(random: &mut Random, wanted: &[Fact]) -> Vec<u8> {
    let mut facts = wanted.to_vec();
    for _ in 0..random.below(6) {
        let place = random.below(facts.len() as u64 + 1) as usize;
        let fact = extra_fact(random, &facts);
        facts.insert(place, fact);
    }
    for place in (1..facts.len()).rev() {
        facts.swap(place, random.below(place as u64 + 1) as usize);
    }
    state_in_bytes(&facts)
}

/// A fact to stand beside these: one of them again, one of them changed a little, or another one.
fn extra_fact(random: &mut Random, facts: &[Fact]) -> Fact {
    if facts.is_empty() || random.one_in(3) {
        return Fact {
            predicate: 200 + random.below(5) as u16,
            terms: vec![Term::Name(random.below(9) as u16)],
        };
    }
    let mut fact = random.pick(facts).clone();
    match random.below(4) {
        0 => fact.predicate = fact.predicate.wrapping_add(1),
        1 if fact.terms.len() < 4 => fact.terms.push(Term::When(Time::PlusInfinity)),
        2 => {
            fact.terms.pop();
        }
        _ => {}
    }
    fact
}

/// The facts, and then others up to the longest state or one byte more.
fn filled_up(random: &mut Random, wanted: &[Fact]) -> Vec<u8> {
    let length = MOST_BYTES + random.below(2) as usize;
    let mut state = state_in_bytes(wanted);
    loop {
        // Facts of three bytes, and of four where these are needed to end at the length.
        match length - state.len() {
            0 => return state,
            4 | 7 | 8 => state.extend([0, 200, 1, 2]),
            _ => state.extend([0, 200, 0]),
        }
    }
}
