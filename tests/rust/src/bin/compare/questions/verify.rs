//! Verify: the answer, the text, and the buffer afterwards.

use super::pairs;
use crate::archive;
use crate::asking::Asking;
use crate::coverage::Call;
use crate::difference::Difference;
use crate::lent::written;
use second_opinion::data::{Answer, Procap};
use second_opinion::generate::Random;
use second_opinion::second;

/// What both implementations issue, or their refusal.
pub fn ask(asking: &mut Asking) -> Result<Result<Procap, Answer>, Difference> {
    let issued = second::verify(asking.case, &mut asking.coverage.verify);
    let text = issued
        .as_ref()
        .map_err(|refusal| *refusal)
        .and_then(second::text_of);
    let mut random = Random::new(asking.random.next());
    let case = asking.for_archive();
    let answer = written(
        &mut random,
        &text,
        |out| archive::verify(&case, out),
        || "verify".to_string(),
    )?;
    asking.coverage.asked("verify");
    asking.coverage.answered(Call::Verify, answer.number);
    if let Ok(procap) = &issued {
        asking.coverage.listed(procap.facts.len());
    }
    pairs::note(asking, &issued);
    Ok(issued)
}
