//! Every example case prints what stands beside it.

use second_opinion::second::printed;
use std::fs;
use std::path::{Path, PathBuf};

/// The cases among the examples.
fn cases() -> Vec<PathBuf> {
    let folder = Path::new(env!("CARGO_MANIFEST_DIR")).join("../../examples");
    let entries = fs::read_dir(folder).expect("the examples are there");
    let paths = entries.map(|entry| entry.expect("an example can be listed").path());
    paths
        .filter(|path| path.extension().is_some_and(|ending| ending == "case"))
        .collect()
}

/// What is to be printed for a case.
fn expected(case: &Path) -> Vec<u8> {
    fs::read(case.with_extension("procap"))
        .or_else(|_| fs::read(case.with_extension("refused")))
        .expect("an answer stands beside the case")
}

/// Each case of the examples prints its procap or its refusal.
#[test]
fn examples_print_what_stands_beside_them() {
    let cases = cases();
    assert!(!cases.is_empty());
    for case in cases {
        let input = fs::read(&case).expect("the case can be read");
        let (printed, expected) = (printed(&input), expected(&case));
        let both = [&printed, &expected].map(|text| String::from_utf8_lossy(text).into_owned());
        assert_eq!(both[0], both[1], "{}", case.display());
    }
}

/// An input that is one byte too long has no line to blame.
#[test]
fn too_long_an_input_is_refused_as_a_whole() {
    assert_eq!(printed(&[b'\n'; 65_537]), b"refused=14\nplace=0\n");
    assert_eq!(printed(&[b'\n'; 65_536]), b"refused=14\nplace=1\n");
    assert_eq!(printed(b""), b"refused=14\nplace=1\n");
}
