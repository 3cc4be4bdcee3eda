//! One press on a procap, whatever case it came from.

use crate::states::{fact_at, some_states};
use second_opinion::data::{Fact, Procap, Request, LATEST};
use second_opinion::generate::Random;

/// A moment and a state to press at, often such that the door opens.
pub fn some_press(random: &mut Random, procap: &Procap) -> (u64, Vec<u8>) {
    let Procap { from, to, .. } = *procap;
    let inside = from + to.saturating_sub(from) / 2;
    let others = [
        0,
        LATEST,
        LATEST + 1,
        u64::MAX,
        from.saturating_sub(1),
        to.saturating_add(1),
        random.next() & LATEST,
    ];
    let moment = match random.below(8) {
        0 => *random.pick(&others),
        1..=3 => from,
        4..=5 => to,
        _ => inside,
    };
    let at = moment.min(LATEST);
    let wanted: Vec<Fact> = procap.facts.iter().map(|fact| fact_at(fact, at)).collect();
    let mut states = some_states(random, &wanted, 1);
    let which = random.below(5).min(1) as usize;
    (moment, states.swap_remove(1 - which))
}

/// Three numbers to ask for, mostly those of the request.
pub fn some_asked(random: &mut Random, request: Request) -> [u64; 3] {
    let mut asked = [request.who, request.what, request.right].map(u64::from);
    if random.one_in(4) {
        let field = random.pick(&[0, 1, 2]);
        asked[*field] = another_number(random, asked[*field]);
    }
    asked
}

/// A request, mostly this one.
pub fn some_request(random: &mut Random, request: Request) -> Request {
    let [who, what, right] = some_asked(random, request).map(|number| number as u16);
    Request { who, what, right }
}

/// Another number to ask for, often too great for a name.
fn another_number(random: &mut Random, number: u64) -> u64 {
    match random.below(6) {
        0 => number ^ 1,
        1 => number + 65_536,
        2 => number | 1 << random.below(64),
        3 => random.next(),
        4 => random.next() << 16 | number,
        _ => random.below(70_000),
    }
}
