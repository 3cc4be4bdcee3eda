//! How ors, falsity and their steps are read: well formed up to each limit, and malformed past it.

mod by_hand;

use by_hand::{alike, by_rule, if_so, Told, ALWAYS, ATOM, MAY};

/// Where a certificate of 1 is malformed, where it reads but does not fit, and where the proof is malformed.
const NO_CERTIFICATE: Told = Err((1, 0));
const MISFIT: Told = Err((3, 1));
const NO_PROOF: Told = Err((2, 0));

/// Ors are as deep as other formulas may be, on either side.
#[test]
fn levels_of_ors() {
    let left = |count: usize| "1a".repeat(count - 1) + "1b" + &"10".repeat(count - 1);
    let right = |count: usize| "1a1b".repeat(count - 1) + "10";
    for levels in [left, right] {
        assert_eq!(alike(&[&levels(16)], "2a 2100"), MISFIT);
        assert_eq!(alike(&[&levels(17)], "2a 2100"), NO_CERTIFICATE);
    }
    let binders = |count: usize| "13".repeat(count) + "1a 10 17012c01 0507";
    assert_eq!(alike(&[&binders(8)], "2a 2100"), MISFIT);
    assert_eq!(alike(&[&binders(9)], "2a 2100"), NO_CERTIFICATE);
    assert_eq!(alike(&[&binders(7)], "2a 2100"), NO_CERTIFICATE);
}

/// An or has two sides, falsity has none, and both sides are held to what any formula is.
#[test]
fn malformed_ors() {
    for formula in ["1b", "1a 1b 1b", "13 1a 17012c01 0500 17012c01 0500"] {
        assert_eq!(alike(&[formula], "2a 2100"), MISFIT);
    }
    let malformed = [
        "1a",
        "1a 10",
        "1a 10 10 10",
        "1b 10",
        "1b 1b",
        "1c",
        "1c 10 10",
        "1a 10 17012c01 0500",
        "1a 17012c01 0500 10",
        "1a 13 10 17012c01 0500",
        "1a 10 17012c01 04",
        "1a 10 20",
        "1a 10 14 15 0500 10",
    ];
    for formula in malformed {
        assert_eq!(alike(&[formula], "2a 2100"), NO_CERTIFICATE, "{formula}");
    }
    assert_eq!(alike(&["1b", MAY, "1a 10"], "2a 2100"), Err((1, 2)));
}

/// The first part of a 30 and the part of a 31 must infer.
#[test]
fn parts_that_must_infer() {
    let checking = [
        "22 25 25",
        "25",
        "28 25",
        "29 2100 25",
        "2a 25",
        "2b 2100 25",
        "2c",
        "2d",
        "2e 25",
        "2f 25",
        "30 2100 25 25",
        "31 2100",
    ];
    for step in checking {
        let takes = [
            format!("30 {step} 25 25"),
            format!("31 {step}"),
            format!("23 {step}"),
            format!("24 {step}"),
            format!("2704 {step}"),
            format!("26 {step} 25 04 04"),
            format!("29 {step} 25"),
            format!("2b {step} 25"),
        ];
        for proof in takes {
            assert_eq!(alike(&["10"], &format!("2a {proof}")), NO_PROOF, "{proof}");
        }
    }
}

/// The other parts check or infer.
#[test]
fn parts_that_need_not_infer() {
    let wants = if_so("1a 10 10");
    let said = [&wants[..], "1a 10 10", "10", "1b"];
    for part in ["25", "2102", "31 2103"] {
        for step in [format!("2e {part}"), format!("2f {part}")] {
            assert_eq!(alike(&said, &by_rule(&step)), ALWAYS);
        }
        let cases = format!("30 2101 2e {part} 2f {part}");
        assert_eq!(alike(&said, &by_rule(&cases)), ALWAYS);
    }
    for part in ["2e 25", "2101", "31 2103", "30 2101 2101 2f 25"] {
        let left = by_rule(&format!("30 2101 {part} 2101"));
        assert_eq!(alike(&said, &left), ALWAYS);
        let right = by_rule(&format!("30 2101 2101 {part}"));
        assert_eq!(alike(&said, &right), ALWAYS);
    }
}

/// Each step has as many parts as it takes, and no tag comes behind 31.
#[test]
fn parts_that_are_missing_or_too_many() {
    let malformed = [
        "2e",
        "2f",
        "30",
        "30 2100",
        "30 2100 25",
        "30 2100 25 25 25",
        "31",
        "31 2100 25",
        "2e 25 25",
        "2f 25 25",
        "32",
        "32 2100",
        "31 2101",
        "30 2101 25 25",
    ];
    for proof in malformed {
        assert_eq!(alike(&["1b"], &format!("2a {proof}")), NO_PROOF, "{proof}");
    }
}

/// A side is an assumption in its own case alone, which is found before anything is walked.
#[test]
fn assumptions_that_enclose() {
    let said = ["1a 10 10", "16 02 03 10"];
    let readable = [
        "30 2100 2000 2000",
        "30 2100 30 2000 2001 2001 2000",
        "30 2100 29 2101 2001 2000",
        "29 2101 30 2000 2001 2001",
    ];
    for proof in readable {
        let misfit = Err((3, 0));
        assert_eq!(alike(&said, &format!("2e {proof}")), misfit, "{proof}");
    }
    let malformed = [
        "30 2000 25 25",
        "30 2100 2001 2000",
        "30 2100 2000 2001",
        "30 2100 29 2101 2002 2000",
        "30 2100 29 2101 2000 2001",
        "30 2100 30 2000 2000 2000 2001",
        "30 2100 2e 2001 25",
        "22 30 2100 25 25 2000",
        "31 2000",
        "29 2101 30 2001 25 25",
    ];
    for proof in malformed {
        assert_eq!(alike(&said, &format!("2e {proof}")), NO_PROOF, "{proof}");
    }
}

/// A step is one level above each of its parts.
#[test]
fn levels_of_proofs() {
    let chain = |before: &str, last: &str, behind: &str, count: usize| {
        before.repeat(count) + last + &behind.repeat(count)
    };
    let deep = |count: usize| {
        let inferred = "23".repeat(count - 2) + "2100";
        [
            chain("2e", "25", "", count - 1),
            chain("2f", "25", "", count - 1),
            chain("30 2100", "25", "25", count - 1),
            chain("30 2100 25", "25", "", count - 1),
            format!("30 {inferred} 25 25"),
            format!("31 {inferred}"),
        ]
    };
    for proof in deep(32) {
        assert!(alike(&["10"], &proof).is_err_and(|(number, _)| number == 3));
    }
    for proof in deep(33) {
        assert_eq!(alike(&["10"], &proof), NO_PROOF, "{proof}");
    }
    let said = [&if_so(ATOM)[..], &format!("1a {ATOM} {ATOM}")];
    let nested = |count: usize| by_rule(&chain("30 2101 2000", "2000", "", count));
    assert_eq!(alike(&said, &nested(29)), ALWAYS);
    assert_eq!(alike(&said, &nested(30)), NO_PROOF);
}
