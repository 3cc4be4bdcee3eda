//! Ors in small cases made by hand: how their sides are shown, and what they are compared with.

mod by_hand;

use by_hand::{
    alike, by_rule, if_so, on, or, pressed, told, Said, ALWAYS, ATOM, EVER, JUNE, OTHER, THIRD,
};
use second_opinion::data::{Answer, Time};

/// An atom about the moment 1500, and about the next one.
const AT_1500: &str = "17012c01 0100000005dc";
const AT_1501: &str = "17012c01 0100000005dd";

/// Each side of an or is shown by its own step.
#[test]
fn left_and_right() {
    let wants = if_so(&or(ATOM, OTHER));
    let (left, right) = (by_rule("2e 2101"), by_rule("2f 2101"));
    assert_eq!(alike(&[&wants, ATOM], &left), ALWAYS);
    assert_eq!(alike(&[&wants, OTHER], &right), ALWAYS);
    assert_eq!(alike(&[&wants, OTHER], &left), Err((3, 5)));
    assert_eq!(alike(&[&wants, ATOM], &right), Err((3, 5)));
    let wants = if_so(&or(&or(ATOM, OTHER), THIRD));
    assert_eq!(alike(&[&wants, OTHER], &by_rule("2e 2f 2101")), ALWAYS);
    assert_eq!(alike(&[&wants, THIRD], &by_rule("2f 2101")), ALWAYS);
    let within_an_atom = by_rule("2f 2f 2101");
    assert_eq!(alike(&[&wants, THIRD], &within_an_atom), Err((3, 5)));
}

/// A goal that is no or has no sides, whatever comes under the step.
#[test]
fn goals_that_are_no_or() {
    let within = or("10", "10");
    let goals = [
        "10".to_string(),
        "1b".to_string(),
        ATOM.to_string(),
        "1800c800".to_string(),
        "19 02 03".to_string(),
        format!("11 {within} {within}"),
        format!("12 {within} {within}"),
        format!("13 {within}"),
        format!("15 000001 {within}"),
        format!("16 02 03 {within}"),
    ];
    for goal in goals {
        for step in ["2e 25", "2f 25", "2e 2101", "2f 2c"] {
            assert_eq!(alike(&[&if_so(&goal), ATOM], &by_rule(step)), Err((3, 4)));
        }
    }
    let never = (Time::PlusInfinity, Time::MinusInfinity);
    let said: [Said; 2] = [(1, EVER, &if_so(ATOM)), (1, never, ATOM)];
    assert_eq!(told(&said, &by_rule("2e 2101")), Err((3, 4)));
    assert_eq!(told(&said, &by_rule("2101")), Err((4, 4)));
}

/// No other step shows an or, and none that takes something else apart takes one.
#[test]
fn steps_that_take_no_or() {
    let either = or("10", "10");
    for step in ["22 25 25", "25", "28 25", "2a 25", "2c", "2d"] {
        assert_eq!(alike(&[&if_so(&either)], &by_rule(step)), Err((3, 4)));
    }
    let steps = [
        "23 2101",
        "24 2101",
        "26 2101 25 04 04",
        "2704 2101",
        "29 2101 25",
        "2b 2101 25",
    ];
    for step in steps {
        for taken in [&either, "1b"] {
            assert_eq!(alike(&[&if_so("10"), taken], &by_rule(step)), Err((3, 4)));
        }
    }
}

/// A side is shown on the goal's interval, in the goal's view.
#[test]
fn a_side_keeps_the_interval_and_the_view() {
    let wants = if_so(&format!("16 {JUNE} {}", or(ATOM, OTHER)));
    for (step, side) in [("28 2e 2101", ATOM), ("28 2f 2101", OTHER)] {
        let proof = by_rule(step);
        let by_1 = |interval| told(&[(1, EVER, &wants), (1, interval, side)], &proof);
        assert_eq!(by_1(EVER), ALWAYS);
        assert_eq!(by_1(on(1000, 4000)), Ok((1000, 4000)));
        assert_eq!(by_1(on(1000, 3999)), Err((4, 6)));
        assert_eq!(by_1(on(3001, 5000)), Err((4, 6)));
    }
    let wants = if_so(&format!("15 000005 {}", or(ATOM, OTHER)));
    for (step, side) in [("2a 2e 2101", ATOM), ("2a 2f 2101", OTHER)] {
        let proof = by_rule(step);
        let by = |name| told(&[(1, EVER, &wants), (name, EVER, side)], &proof);
        assert_eq!(by(5), ALWAYS);
        assert_eq!(by(1), Err((3, 6)));
    }
}

/// An inferred or serves for the same or alone, and no side of it does.
#[test]
fn ors_compared() {
    let proof = by_rule("2101");
    let both = or(ATOM, OTHER);
    let wants = if_so(&both);
    assert_eq!(alike(&[&wants, &both], &proof), ALWAYS);
    let pair = format!("{ATOM} {OTHER}");
    let others = [
        or(OTHER, ATOM),
        or(ATOM, THIRD),
        or(THIRD, OTHER),
        or(ATOM, &both),
        format!("11 {pair}"),
        format!("12 {pair}"),
        ATOM.to_string(),
        OTHER.to_string(),
        "1b".to_string(),
    ];
    for other in others {
        assert_eq!(alike(&[&wants, &other], &proof), Err((3, 4)));
        assert_eq!(alike(&[&if_so(&other), &both], &proof), Err((3, 4)));
    }
}

/// Of two differences in ors the one further to the left counts, and times are compared in both sides.
#[test]
fn first_differences_in_ors() {
    let proof = by_rule("2101");
    let left_first = [&if_so(&or(AT_1500, "10"))[..], &or(AT_1501, ATOM)];
    assert_eq!(alike(&left_first, &proof), Err((4, 4)));
    let kind_first = [&if_so(&or("10", AT_1500))[..], &or(ATOM, AT_1501)];
    assert_eq!(alike(&kind_first, &proof), Err((3, 4)));
    let right_alone = [&if_so(&or("10", AT_1500))[..], &or("10", AT_1501)];
    assert_eq!(alike(&right_alone, &proof), Err((4, 4)));
    let at_the_press = "17012c01 0500";
    let wants = format!("14 {}", if_so(&or(at_the_press, at_the_press)));
    let now = "2a 26 2704 2100 2101 04 04";
    let same = or(AT_1500, AT_1500);
    let said: [Said; 2] = [(1, EVER, &wants), (1, EVER, &same)];
    assert_eq!(told(&said, now), Ok((1500, 1500)));
    let apart = or(AT_1500, AT_1501);
    let said: [Said; 2] = [(1, EVER, &wants), (1, EVER, &apart)];
    assert_eq!(told(&said, now), Err((5, 0)));
    assert_eq!(pressed(&said, now, 1500), Answer::refused(4, 6));
}
