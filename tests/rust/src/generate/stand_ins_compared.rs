//! Small cases where names are compared that are not the same, while one of them stands above the other.

use super::formula::Formula;
use super::limits::{always, case, some_request};
use super::pairs::{leading_down, ring};
use super::rule::{asking, granted};
use super::step::Step;
use super::valid::may;
use super::views::said;
use super::word::Word;
use super::Random;
use crate::data::{Case, Request};

/// A case where one end of a line of names is wanted and the other is there, whoever is the stronger.
pub fn compared(random: &mut Random, lowest: u16, names: &[u16]) -> Case {
    let mut ends = [lowest, names[0]];
    if random.one_in(2) {
        ends.reverse();
    }
    let made = match random.below(3) {
        0 => in_request(random, ends),
        1 => in_goal(random, ends, |name| Formula::says(Word::name(name), said())),
        _ => in_goal(random, ends, |name| {
            Formula::atom(300, vec![Word::name(name)])
        }),
    };
    let pairs = match random.one_in(2) && names.len() < 128 {
        true => ring(names),
        false => leading_down(random, names),
    };
    Case { pairs, ..made }
}

/// A request by one, where another is granted what it asks for.
fn in_request(random: &mut Random, [wanted, there]: [u16; 2]) -> Case {
    let others = some_request(random);
    let by = |who| Request { who, ..others };
    case(by(wanted), &[always(may(by(there)))], Step::certificate(0))
}

/// A goal about one, where the same is there about another.
fn in_goal(random: &mut Random, ends: [u16; 2], about: fn(u16) -> Formula) -> Case {
    let [wanted, there] = ends.map(about);
    let request = some_request(random);
    let policy = [asking(request, wanted), always(there)];
    case(request, &policy, granted(Step::certificate(1)))
}
