//! The cases of the examples.

use second_opinion::data::Case;
use second_opinion::second;

/// The case of an example.
pub fn example(name: &str) -> Case {
    let path = format!("{}/../examples/{name}.case", env!("CARGO_MANIFEST_DIR"));
    let input = std::fs::read(path).expect("the example is there");
    second::case_of(&input).expect("the example is a case")
}
