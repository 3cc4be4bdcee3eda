//! Goals shown by cases, in small cases made by hand: from which side, on which interval, in which view.

mod by_hand;

use by_hand::{
    alike, by_rule, if_so, on, or, pressed, told, Said, ALWAYS, ATOM, EVER, IN_JUNE, IN_MARCH,
    JUNE, MARCH, MAY, OTHER, THIRD,
};
use second_opinion::data::Answer;

/// By cases the goal is shown twice: from the left side, then from the right one.
#[test]
fn by_cases() {
    let wants = if_so(ATOM);
    let proof = by_rule("30 2101 2000 2000");
    assert_eq!(alike(&[&wants, &or(ATOM, ATOM)], &proof), ALWAYS);
    assert_eq!(alike(&[&wants, &or(ATOM, OTHER)], &proof), Err((3, 9)));
    assert_eq!(alike(&[&wants, &or(OTHER, ATOM)], &proof), Err((3, 7)));
    assert_eq!(alike(&[&wants, &or(OTHER, OTHER)], &proof), Err((3, 7)));
    let wants = if_so(THIRD);
    let (for_left, for_right) = (format!("12 {ATOM} {THIRD}"), format!("12 {OTHER} {THIRD}"));
    let said = [&wants[..], &or(ATOM, OTHER), &for_left, &for_right];
    let by = |left: &str, right: &str| {
        let branches = format!("26 {left} 2000 04 04 26 {right} 2000 04 04");
        alike(&said, &by_rule(&format!("30 2101 {branches}")))
    };
    assert_eq!(by("2102", "2103"), ALWAYS);
    assert_eq!(by("2103", "2102"), Err((3, 10)));
    assert_eq!(by("2102", "2102"), Err((3, 17)));
}

/// The head blender or the day blender says so, and either would do.
#[test]
fn either_blender_says_so() {
    let says_so = |name: &str| format!("15 {name} {MAY}");
    let (head, day) = (says_so("000005"), says_so("000006"));
    let said = [&or(&head, &day)[..], &if_so(&head), &if_so(&day)];
    let proof = "2a 30 2100 26 2101 2000 04 04 26 2102 2000 04 04";
    assert_eq!(alike(&said, proof), ALWAYS);
    let head_alone = "2a 30 2100 26 2101 2000 04 04 26 2101 2000 04 04";
    assert_eq!(alike(&said, head_alone), Err((3, 14)));
}

/// Nothing but an or has cases; its own inference comes before that, and both cases behind it.
#[test]
fn what_has_no_cases() {
    let (wants, either) = (if_so(ATOM), or(ATOM, ATOM));
    let others = [
        ATOM.to_string(),
        "10".to_string(),
        "1b".to_string(),
        format!("11 {ATOM} {ATOM}"),
        format!("12 {ATOM} {ATOM}"),
        format!("13 {either}"),
        format!("15 000001 {either}"),
        format!("16 02 03 {either}"),
    ];
    for other in &others {
        for step in ["30 2101 2000 2000", "30 2101 2c 2c"] {
            assert_eq!(alike(&[&wants, other], &by_rule(step)), Err((3, 4)));
        }
    }
    let first = by_rule("30 23 2101 2000 2000");
    assert_eq!(alike(&[&wants, &either], &first), Err((3, 5)));
    let with_top = format!("11 {either} 10");
    assert_eq!(alike(&[&wants, &with_top], &first), ALWAYS);
    let by_5: [Said; 2] = [(1, EVER, &wants), (5, EVER, ATOM)];
    assert_eq!(told(&by_5, &by_rule("30 2101 2000 2000")), Err((3, 5)));
}

/// A side is assumed on the interval where the or was inferred.
#[test]
fn a_side_is_assumed_where_the_or_is_inferred() {
    let (wants, for_top) = (if_so(ATOM), format!("12 10 {}", or(ATOM, ATOM)));
    let said: [Said; 2] = [(1, EVER, &wants), (1, EVER, &for_top)];
    let proof = |interval: &str| by_rule(&format!("30 26 2101 25 {interval} 2000 2000"));
    assert_eq!(told(&said, &proof("02 03")), ALWAYS);
    assert_eq!(told(&said, &proof("02 0100000007d0")), Ok((0, 2000)));
    assert_eq!(told(&said, &proof("03 03")), Err((4, 11)));
    assert_eq!(told(&said, &proof(MARCH)), Ok((1000, 2000)));
    assert_eq!(pressed(&said, &proof(MARCH), 1000), Answer::GRANTED);
    assert_eq!(pressed(&said, &proof(MARCH), 2000), Answer::GRANTED);
    for moment in [999, 2001] {
        let late = Answer::refused(4, 21);
        assert_eq!(pressed(&said, &proof(MARCH), moment), late);
    }
    let wants = if_so(&format!("16 {JUNE} {ATOM}"));
    let proof = |interval: &str| by_rule(&format!("28 30 26 2101 25 {interval} 2000 2000"));
    let on_june = |interval: &str| alike(&[&wants, &for_top], &proof(interval));
    assert_eq!(on_june(JUNE), ALWAYS);
    assert_eq!(on_june(MARCH), Err((4, 22)));
    assert_eq!(on_june("010000000bb8 010000000f9f"), Err((4, 22)));
    assert_eq!(on_june("010000000bb9 010000000fa0"), Err((4, 22)));
}

/// The interval of the or counts where its side is used, in the second case too, and nowhere else.
#[test]
fn an_or_in_march() {
    let (wants, for_top) = (if_so(ATOM), format!("12 10 {}", or(OTHER, ATOM)));
    let said: [Said; 3] = [(1, EVER, &wants), (1, EVER, &for_top), (1, EVER, ATOM)];
    let proof = |right: &str| by_rule(&format!("30 26 2101 25 {MARCH} 2102 {right}"));
    assert_eq!(told(&said, &proof("2000")), Ok((1000, 2000)));
    let late = Answer::refused(4, 23);
    assert_eq!(pressed(&said, &proof("2000"), 999), late);
    assert_eq!(pressed(&said, &proof("2000"), 2001), late);
    assert_eq!(told(&said, &proof("2102")), ALWAYS);
    let certified = or(ATOM, ATOM);
    let in_march: [Said; 2] = [(1, EVER, &wants), (1, IN_MARCH, &certified)];
    let proof = by_rule("30 2101 2000 2000");
    assert_eq!(told(&in_march, &proof), Ok((1000, 2000)));
    assert_eq!(pressed(&in_march, &proof, 2001), Answer::refused(4, 5));
}

/// The goal keeps its own interval in both cases.
#[test]
fn the_goal_stays_where_it_is() {
    let of_june = format!("16 {JUNE} {ATOM}");
    let said = [&if_so(&of_june)[..], &or(OTHER, OTHER), &of_june];
    let proof = "2a 29 2102 26 2100 28 30 2101 2001 2001 04 04";
    assert_eq!(alike(&said, proof), ALWAYS);
    let of_march = format!("16 {MARCH} {ATOM}");
    let said = [&if_so(&of_june)[..], &or(OTHER, OTHER), &of_march];
    assert_eq!(alike(&said, proof), Err((4, 11)));
}

/// A side is nobody's claim: it is used in any view where the cases stand, and in none that is entered later.
#[test]
fn a_side_is_a_plain_assumption() {
    let wants = if_so(&format!("16 {JUNE} 15 000005 16 {MARCH} {ATOM}"));
    let for_top = format!("12 10 {}", or(ATOM, ATOM));
    let by_5: [Said; 2] = [(1, EVER, &wants), (5, EVER, &for_top)];
    let proof = by_rule(&format!("28 2a 30 26 2101 25 {MARCH} 28 2000 28 2000"));
    assert_eq!(told(&by_5, &proof), ALWAYS);
    let wants = if_so(&format!("15 000001 {ATOM}"));
    let (either, always) = (or(ATOM, ATOM), format!("16 02 03 {ATOM}"));
    let shown = |step: &str| alike(&[&wants, &either, ATOM, &always], &by_rule(step));
    assert_eq!(shown("2a 30 2101 2000 2000"), ALWAYS);
    assert_eq!(shown("30 2101 2a 2000 2a 2000"), Err((3, 8)));
    assert_eq!(shown("30 2101 2a 2102 2a 2000"), Err((3, 11)));
    assert_eq!(shown("30 2101 2a 2102 2a 2102"), ALWAYS);
    assert_eq!(shown("30 2101 2a 29 2103 2001 2a 2102"), Err((3, 11)));
    assert_eq!(shown("30 2101 2a 29 2103 2000 2a 2102"), ALWAYS);
    let said = format!("15 000001 {ATOM}");
    let claims = by_rule("30 2101 2b 2000 2a 2000 2b 2000 2a 2000");
    assert_eq!(alike(&[&wants, &or(&said, &said)], &claims), ALWAYS);
}

/// In each case its own side is the latest assumption, and behind the cases both are gone.
#[test]
fn how_sides_are_numbered() {
    let always = format!("16 02 03 {ATOM}");
    let said = [&if_so(ATOM)[..], &or(OTHER, OTHER), &always];
    let shown = |step: &str| alike(&said, &by_rule(step));
    assert_eq!(shown("29 2102 30 2101 2001 2001"), ALWAYS);
    assert_eq!(shown("29 2102 30 2101 2000 2001"), Err((3, 10)));
    assert_eq!(shown("29 2102 30 2101 2001 2000"), Err((3, 12)));
    assert_eq!(shown("30 2101 29 2102 2000 29 2102 2000"), ALWAYS);
    assert_eq!(shown("30 2101 29 2102 2000 29 2102 2001"), Err((3, 15)));
    let pair = if_so(&format!("11 {ATOM} {ATOM}"));
    let said = [&pair[..], &or(OTHER, OTHER), &always];
    let behind = by_rule("29 2102 22 30 2101 2001 2001 2000");
    assert_eq!(alike(&said, &behind), ALWAYS);
    let assumed = format!("16 02 03 {}", or(ATOM, ATOM));
    let proof = by_rule("29 2101 30 2000 2000 2000");
    assert_eq!(alike(&[&if_so(ATOM), &assumed], &proof), ALWAYS);
}

/// A term goes into both sides of an or, under further binders too.
#[test]
fn terms_put_into_ors() {
    let about_all = or("17012c01 0500", "13 17012d02 0501 0500");
    let for_left = format!("12 17012c01 000002 {ATOM}");
    let for_right = |name: &str| format!("12 13 17012d02 {name} 0500 {ATOM}");
    let proof = |name: &str| {
        let branches = "26 2102 2000 04 04 26 2103 2000 04 04";
        by_rule(&format!("30 27{name} 2101 {branches}"))
    };
    let shown = |right: &str, name: &str| {
        let all = format!("13 {about_all}");
        let said = [&if_so(ATOM)[..], &all, &for_left, &for_right(right)];
        alike(&said, &proof(name))
    };
    assert_eq!(shown("000002", "000002"), ALWAYS);
    assert_eq!(shown("000002", "000003"), Err((3, 14)));
    assert_eq!(shown("000003", "000002"), Err((3, 21)));
}

/// What the cases need of the press is joined, and a moment that none leaves hides no misfit.
#[test]
fn moments_of_both_cases() {
    let (wants, either) = (if_so(ATOM), or("10", "10"));
    let proof = by_rule("30 2101 2102 2103");
    let said = |left, right, last| -> [Said; 4] {
        [
            (1, EVER, &wants),
            (1, EVER, &either),
            (1, left, ATOM),
            (1, right, last),
        ]
    };
    let joined = said(on(1000, 3000), on(2000, 4000), ATOM);
    assert_eq!(told(&joined, &proof), Ok((2000, 3000)));
    let apart = said(IN_MARCH, IN_JUNE, ATOM);
    assert_eq!(told(&apart, &proof), Err((5, 0)));
    assert_eq!(pressed(&apart, &proof, 1500), Answer::refused(4, 9));
    assert_eq!(pressed(&apart, &proof, 3500), Answer::refused(4, 7));
    let misfit = said(IN_MARCH, IN_JUNE, OTHER);
    assert_eq!(told(&misfit, &proof), Err((3, 9)));
}
