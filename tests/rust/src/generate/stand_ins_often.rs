//! Cases whose proof asks for a strength again and again.

use super::formula::Formula;
use super::limits::{always, case, some_request};
use super::limits_proof::at_all_times;
use super::pairs::{leading_down, line_above, some_length};
use super::step::Step;
use super::tags;
use super::valid::{may, ADMINISTRATOR};
use super::Random;
use crate::data::{Case, Pair, Request};

/// How many ends the largest of these proofs has. No proof that can be read asks more often: 1638 times in 4,096 bytes.
pub const MOST_ENDS: usize = 819;

/// The certificates: of what is granted, of an or whose sides say nothing, and of something that holds at all times.
const GRANTED: usize = 0;
const EITHER: usize = 1;
const AT_ALL_TIMES: usize = 2;

/// A case of a request whose certificates are all by one principal, and whose proof goes into cases until there are so
/// many ends; at each end and before each two cases it asks whether the principal is strong enough, and once more
/// before all.
pub fn asking_often(request: Request, principal: u16, pairs: Vec<Pair>, ends: usize) -> Case {
    let top = Formula::top();
    let said = [
        may(request),
        Formula::either(top.clone(), top.clone()),
        at_all_times(top),
    ];
    let mut policy = said.map(always);
    for certificate in &mut policy {
        certificate.principal = principal;
    }
    let parts = vec![Step::certificate(AT_ALL_TIMES), into_cases(ends)];
    Case {
        pairs,
        ..case(request, &policy, Step::over(tags::AT_OUT, parts))
    }
}

/// The step that goes into cases until there are so many ends.
fn into_cases(ends: usize) -> Step {
    if ends <= 1 {
        return Step::certificate(GRANTED);
    }
    let [left, right] = [ends / 2, ends - ends / 2].map(into_cases);
    Step::over(tags::CASES, vec![Step::certificate(EITHER), left, right])
}

/// A case of some ends, by one who stands above the administrator.
pub fn some_often(random: &mut Random) -> Case {
    let request = some_request(random);
    let (length, ends) = (some_length(random), 1 + random.below(24) as usize);
    let names = line_above(random, ADMINISTRATOR, length);
    let pairs = leading_down(random, &names);
    asking_often(request, names[0], pairs, ends)
}
