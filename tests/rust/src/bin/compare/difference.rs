//! Where the two implementations part.

use std::fmt::Debug;

/// A question that was answered in two ways.
pub struct Difference {
    pub question: String,
    pub second: String,
    pub archive: String,
}

/// That nothing differed, or what did.
pub type Outcome = Result<(), Difference>;

/// Goes on where both answers are the same.
pub fn same<T: PartialEq + Debug>(
    second: &T,
    archive: &T,
    question: impl FnOnce() -> String,
) -> Outcome {
    if second == archive {
        return Ok(());
    }
    Err(Difference {
        question: question(),
        second: format!("{second:?}"),
        archive: format!("{archive:?}"),
    })
}

/// Goes on where a promise holds that joins several answers.
pub fn promised(
    held: bool,
    question: impl FnOnce() -> String,
    wanted: &str,
    found: impl Debug,
) -> Outcome {
    if held {
        return Ok(());
    }
    Err(Difference {
        question: question(),
        second: wanted.to_string(),
        archive: format!("{found:?}"),
    })
}
