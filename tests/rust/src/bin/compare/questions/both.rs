//! Verify and the direct check on a case that is not quite the one at hand.

use crate::archive::{self, Returned};
use crate::difference::{same, Outcome};
use second_opinion::data::{Answer, Case};
use second_opinion::second::{self, NoWatch};

/// Asks verify, and the direct check at a moment in an empty state, about a case that the archive has in these bytes.
pub fn both(
    case: &Case,
    for_archive: &archive::Case,
    moment: u64,
    words: impl Fn(&str) -> String,
) -> Outcome {
    let verified = second::verify(case, &mut NoWatch);
    let returned = archive::verify(for_archive, &mut [0; 1300]);
    same(&Answer::of(&verified), &returned.answer, || words("verify"))?;
    let answer = second::direct(case, moment, &[], &mut NoWatch);
    let returned = archive::direct(for_archive, moment, &[]);
    same(&Returned::plain(answer), &returned, || {
        words("direct check")
    })
}
