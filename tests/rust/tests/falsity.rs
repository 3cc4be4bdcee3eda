//! Falsity in small cases made by hand: what it is compared with, and what follows from it.

mod by_hand;

use by_hand::{
    alike, by_rule, case_of_1, if_so, pressed, told, Said, ALWAYS, ATOM, EVER, IN_MARCH, JUNE,
    MARCH, MAY, OTHER,
};
use second_opinion::data::Answer;
use second_opinion::second::{verify, NoWatch};

/// Falsity serves for falsity, and is neither top nor anything else.
#[test]
fn falsity_compared() {
    let proof = by_rule("2101");
    assert_eq!(alike(&[&if_so("1b"), "1b"], &proof), ALWAYS);
    for other in ["10", ATOM, "1a 1b 1b", "11 1b 1b", "12 10 1b"] {
        assert_eq!(alike(&[&if_so("1b"), other], &proof), Err((3, 4)));
        assert_eq!(alike(&[&if_so(other), "1b"], &proof), Err((3, 4)));
    }
    for step in ["25", "2c", "2d", "22 25 25"] {
        assert_eq!(alike(&[&if_so("1b")], &by_rule(step)), Err((3, 4)));
    }
    let left_first = ["1a 17012c01 02 1b", "1a 17012c01 03 10"];
    assert_eq!(
        alike(&[&if_so(left_first[0]), left_first[1]], &proof),
        Err((4, 4))
    );
}

/// Any goal follows from falsity, and no fact is asked for.
#[test]
fn any_goal() {
    assert_eq!(alike(&["1b"], "2a 31 2100"), ALWAYS);
    let goals = [
        ATOM.to_string(),
        "10".to_string(),
        "1b".to_string(),
        "1800c800".to_string(),
        "19 03 02".to_string(),
        format!("11 {ATOM} {OTHER}"),
        format!("12 {ATOM} {OTHER}"),
        format!("13 {ATOM}"),
        format!("15 000005 {ATOM}"),
        format!("16 {JUNE} {ATOM}"),
        format!("1a {ATOM} {OTHER}"),
    ];
    for goal in goals {
        let said = [&if_so(&goal)[..], "1b"];
        assert_eq!(alike(&said, &by_rule("31 2101")), ALWAYS);
        let issued = verify(&case_of_1(&said, &by_rule("31 2101")), &mut NoWatch);
        assert!(issued.is_ok_and(|procap| procap.facts.is_empty()));
    }
}

/// Nothing but falsity is enough, and its own inference comes before that.
#[test]
fn what_is_not_falsity() {
    for other in ["10", MAY, "1a 1b 1b", "11 1b 1b", "12 10 1b", "13 1b"] {
        assert_eq!(alike(&[other], "2a 31 2100"), Err((3, 1)));
    }
    for other in ["15 000001 1b", "16 02 03 1b", "1800c800", "19 03 02"] {
        assert_eq!(alike(&[other], "2a 31 2100"), Err((3, 1)));
    }
    assert_eq!(alike(&["11 1b 10"], "2a 31 23 2100"), ALWAYS);
    assert_eq!(alike(&["11 1b 10"], "2a 31 24 2100"), Err((3, 1)));
    assert_eq!(alike(&["1b"], "2a 31 23 2100"), Err((3, 2)));
    assert_eq!(alike(&["1b"], "31 2100"), Err((3, 1)));
}

/// Falsity on one interval is enough for a goal on any other.
#[test]
fn any_interval() {
    let for_top = "12 10 1b";
    for interval in [MARCH, JUNE, "02 03", "03 02", "03 03", "04 04"] {
        let proof = format!("2a 31 26 2100 25 {interval}");
        assert_eq!(alike(&[for_top], &proof), ALWAYS);
        let wants = if_so(&format!("16 {JUNE} {ATOM}"));
        let proof = by_rule(&format!("28 31 26 2101 25 {interval}"));
        assert_eq!(alike(&[&wants, for_top], &proof), ALWAYS);
    }
}

/// Whose falsity it is, and when it can be used, is for the view to say.
#[test]
fn falsity_in_a_view() {
    let in_march: [Said; 1] = [(1, IN_MARCH, "1b")];
    assert_eq!(told(&in_march, "2a 31 2100"), Ok((1000, 2000)));
    let late = Answer::refused(4, 2);
    assert_eq!(pressed(&in_march, "2a 31 2100", 2001), late);
    assert_eq!(told(&[(5, EVER, "1b")], "2a 31 2100"), Err((3, 2)));
    let wants = if_so(&format!("15 000005 {ATOM}"));
    let by_5: [Said; 2] = [(1, EVER, &wants), (5, EVER, "1b")];
    assert_eq!(told(&by_5, &by_rule("2a 31 2101")), ALWAYS);
    assert_eq!(told(&by_5, &by_rule("31 2101")), Err((3, 5)));
}

/// A side that is falsity leaves the other one.
#[test]
fn falsity_as_a_side() {
    let wants = if_so(ATOM);
    let (left, right) = (format!("1a 1b {ATOM}"), format!("1a {ATOM} 1b"));
    let shown = |either: &str, step: &str| alike(&[&wants, either], &by_rule(step));
    assert_eq!(shown(&right, "30 2101 2000 31 2000"), ALWAYS);
    assert_eq!(shown(&left, "30 2101 31 2000 2000"), ALWAYS);
    assert_eq!(shown(&left, "30 2101 2000 31 2000"), Err((3, 7)));
    assert_eq!(shown(&right, "30 2101 2000 2000"), Err((3, 9)));
    assert_eq!(shown(&right, "30 2101 31 2000 31 2000"), Err((3, 7)));
    assert_eq!(shown("1a 1b 1b", "30 2101 31 2000 31 2000"), ALWAYS);
    let wants = if_so(&format!("15 000001 {ATOM}"));
    let shut_out = by_rule("30 2101 2a 31 2000 2a 31 2000");
    assert_eq!(alike(&[&wants, "1a 1b 1b"], &shut_out), Err((3, 9)));
}
