//! Each rule of the walk in a small case made by hand, and the limits from both sides.

mod by_hand;

use by_hand::{briefly, case_of_1 as case, if_so, Told, ALWAYS, ATOM, MAY};
use second_opinion::data::{Answer, Case, Time, LATEST};
use second_opinion::second::{direct, verify, NoWatch};

/// What verify says to a case.
fn told_of(case: &Case) -> Told {
    briefly(verify(case, &mut NoWatch))
}

/// What verify says where 1 says these formulas for all time.
fn told(said: &[&str], proof: &str) -> Told {
    told_of(&case(said, proof))
}

/// Conjunctions are taken apart, and top is shown.
#[test]
fn sides_and_top() {
    let may_first = format!("11 {MAY} {ATOM}");
    assert_eq!(told(&[&may_first], "2a 23 2100"), ALWAYS);
    assert_eq!(told(&[&may_first], "2a 24 2100"), Err((3, 1)));
    let may_second = format!("11 {ATOM} {MAY}");
    assert_eq!(told(&[&may_second], "2a 24 2100"), ALWAYS);
    assert_eq!(told(&[MAY], "2a 23 2100"), Err((3, 1)));
    assert_eq!(told(&[&if_so("10")], "2a 26 2100 25 04 04"), ALWAYS);
    assert_eq!(told(&[&if_so(ATOM)], "2a 26 2100 25 04 04"), Err((3, 4)));
    assert_eq!(
        told(&[&if_so("11 10 10")], "2a 26 2100 22 25 25 04 04"),
        ALWAYS
    );
}

/// A step refuses what is not of the kind that it takes.
#[test]
fn kinds_that_do_not_fit() {
    let top = if_so("10");
    assert_eq!(told(&[MAY], "2a 24 2100"), Err((3, 1)));
    assert_eq!(told(&[MAY], "2a 26 2100 25 04 04"), Err((3, 1)));
    assert_eq!(told(&[MAY], "2a 2704 2100"), Err((3, 1)));
    assert_eq!(told(&[&top], "2a 26 2100 2c 04 04"), Err((3, 4)));
    let shown_at = "2a 26 2100 28 25 04 04";
    assert_eq!(told(&[&if_so("16 03 02 10")], shown_at), ALWAYS);
    assert_eq!(told(&[&top], shown_at), Err((3, 4)));
}

/// A certificate is used within its own interval only.
#[test]
fn intervals_of_certificates() {
    let mut said = case(&[MAY], "2a 2100");
    said.records[0].from = Time::Moment(1000);
    said.records[0].to = Time::Moment(999);
    assert_eq!(told_of(&said), Err((5, 0)));
    said.records[0].to = Time::MinusInfinity;
    assert_eq!(told_of(&said), Err((4, 1)));
    said.records[0].to = Time::Moment(1000);
    assert_eq!(told_of(&said), Ok((1000, 1000)));
    said.records[0].from = Time::PlusInfinity;
    assert_eq!(told_of(&said), Err((4, 1)));
    said.records[0].from = Time::Moment(LATEST + 1);
    assert_eq!(told_of(&said), Err((1, 0)));
    said.records[0].from = Time::Ctime;
    assert_eq!(told_of(&said), Err((1, 0)));
}

/// A formula that is taken out of an interval counts on the interval, as long as the certificate lasts that it is from.
#[test]
fn taken_out_of_an_interval() {
    let named = format!("16 0100000003e8 0100000007d0 {MAY}");
    assert_eq!(told(&[&named], "2a 29 2100 20 00"), Ok((1000, 2000)));
    let mut past = case(&[&named], "2a 29 2100 20 00");
    past.records[0].to = Time::Moment(1700);
    assert_eq!(told_of(&past), Ok((1000, 1700)));
    past.records[0].to = Time::Moment(5);
    assert_eq!(told_of(&past), Err((5, 0)));
    assert_eq!(told(&[MAY], "2a 29 2100 20 00"), Err((3, 1)));
    assert_eq!(told(&[&named], "2a 29 2100 20 01"), Err((2, 0)));
}

/// A plain assumption stays outside of a view that is entered later.
#[test]
fn plain_assumptions_stay_outside() {
    let held = format!("16 02 03 {ATOM}");
    let wants_atom = if_so(ATOM);
    let proof = "2a 29 2101 26 2100 2000 04 04";
    assert_eq!(told(&[&wants_atom, &held], proof), ALWAYS);
    let wants_says = if_so(&format!("15 000005 {ATOM}"));
    let proof = "2a 29 2101 26 2100 2a 2000 04 04";
    assert_eq!(told(&[&wants_says, &held], proof), Err((3, 8)));
    let of_1 = if_so(&format!("15 000001 {ATOM}"));
    assert_eq!(told(&[&of_1, &held], proof), Err((3, 8)));
    let proof = "2a 26 2100 2a 29 2101 2000 04 04";
    assert_eq!(told(&[&of_1, &held], proof), ALWAYS);
    let says = format!("15 000001 {ATOM}");
    let proof = "2a 2b 2101 26 2100 2000 04 04";
    assert_eq!(told(&[&wants_atom, &says], proof), ALWAYS);
    let others = format!("15 000005 {ATOM}");
    assert_eq!(told(&[&wants_atom, &others], proof), Err((3, 7)));
    assert_eq!(told(&[&wants_atom, ATOM], proof), Err((3, 1)));
}

/// An order of times holds, fails, or narrows.
#[test]
fn orders_of_times() {
    let proof = "2a 26 2100 2d 04 04";
    assert_eq!(told(&[&if_so("19 02 03")], proof), ALWAYS);
    assert_eq!(told(&[&if_so("19 03 02")], proof), Err((4, 4)));
    assert_eq!(told(&[&if_so("10")], proof), Err((3, 4)));
    let narrowing = "2a 26 2704 2100 2d 04 04";
    let up_to_1500 = format!("14 {}", if_so("19 0500 0100000005dc"));
    assert_eq!(told(&[&up_to_1500], narrowing), Ok((0, 1500)));
    let from_1500 = format!("14 {}", if_so("19 0100000005dc 0500"));
    assert_eq!(told(&[&from_1500], narrowing), Ok((1500, LATEST)));
    let ever = format!("14 {}", if_so("19 03 0500"));
    assert_eq!(told(&[&ever], narrowing), Err((4, 6)));
    let now = format!("14 {}", if_so("19 0500 0500"));
    assert_eq!(told(&[&now], narrowing), ALWAYS);
    let with_a_name = "2a 26 27000002 2100 2d 04 04";
    assert_eq!(told(&[&now], with_a_name), Err((3, 2)));
}

/// Times in what is compared are equal where neither is after the other.
#[test]
fn equal_times() {
    let wants = format!("14 {}", if_so("17012c01 0500"));
    let (at_1500, at_ever) = ("17012c01 0100000005dc", "17012c01 03");
    let now = "2a 26 2704 2100 2101 04 04";
    assert_eq!(told(&[&wants, at_1500], now), Ok((1500, 1500)));
    assert_eq!(told(&[&wants, at_ever], now), Err((4, 6)));
    assert_eq!(told(&[&wants, "17012c01 000007"], now), Err((3, 6)));
    assert_eq!(told(&[&wants, "17012c02 03 03"], now), Err((3, 6)));
    assert_eq!(told(&[&wants, "17012d01 03"], now), Err((3, 6)));
    let at_1501 = "2a 26 270100000005dd 2100 2101 04 04";
    assert_eq!(told(&[&wants, at_1500], at_1501), Err((4, 11)));
    let press = |moment| direct(&case(&[&wants, at_1500], now), moment, &[], &mut NoWatch);
    assert_eq!(press(1500), Answer::GRANTED);
    assert_eq!(press(1499), Answer::refused(4, 6));
    assert_eq!(press(1501), Answer::refused(4, 6));
}

/// Of two differences the one further to the left counts, and an empty interval hides none.
#[test]
fn first_differences() {
    let proof = "2a 26 2100 2101 04 04";
    let wants = if_so("11 17012c01 0100000005dc 10");
    let said = format!("11 17012c01 0100000005dd {ATOM}");
    assert_eq!(told(&[&wants, &said], proof), Err((4, 4)));
    let wants = if_so("11 10 17012c01 0100000005dc");
    let said = format!("11 {ATOM} 17012c01 0100000005dd");
    assert_eq!(told(&[&wants, &said], proof), Err((3, 4)));
    let empty = "26 2100 25 0100000005dc 010000000578";
    assert_eq!(told(&[&if_so("10")], &format!("2a {empty}")), Err((5, 0)));
    let other = format!("12 10 {ATOM}");
    assert_eq!(told(&[&other], &format!("2a {empty}")), Err((3, 1)));
}

/// Terms go in for their own variables, and variables that stay are compared by their binders.
#[test]
fn terms_put_in() {
    let wants = "13 14 12 17012c02 0501 0500 17006403 0501 000007 000009";
    let proof = "2a 26 2702 27000002 2100 2101 04 04";
    assert_eq!(told(&[wants, "17012c02 000002 02"], proof), ALWAYS);
    assert_eq!(told(&[wants, "17012c02 000003 02"], proof), Err((3, 10)));
    let wants = format!("13 {}", if_so("13 17012c02 0500 0501"));
    let proof = "2a 26 27000002 2100 2101 04 04";
    assert_eq!(told(&[&wants, "13 17012c02 0500 000002"], proof), ALWAYS);
    assert_eq!(told(&[&wants, "13 17012c02 0500 0500"], proof), Err((3, 8)));
    let wants = if_so("13 13 17012c01 0500");
    let proof = "2a 26 2100 2101 04 04";
    assert_eq!(told(&[&wants, "13 13 17012c01 0500"], proof), ALWAYS);
    assert_eq!(told(&[&wants, "13 13 17012c01 0501"], proof), Err((3, 4)));
    assert_eq!(told(&[&wants, "13 14 17012c01 0500"], proof), Err((3, 4)));
}

/// A certificate is malformed just past its limits, and where a place has the wrong sort.
#[test]
fn limits_of_certificates() {
    let proof = "2a 2100";
    let misfit = Err((3, 1));
    let malformed = Err((1, 0));
    let levels = |count: usize| "160203".repeat(count - 1) + "10";
    assert_eq!(told(&[&levels(16)], proof), misfit);
    assert_eq!(told(&[&levels(17)], proof), malformed);
    let binders = |count: usize| "13".repeat(count) + "17012c01 0507";
    assert_eq!(told(&[&binders(8)], proof), misfit);
    assert_eq!(told(&[&binders(9)], proof), malformed);
    assert_eq!(told(&[&binders(7)], proof), malformed);
    assert_eq!(told(&["13 15 0500 10"], proof), misfit);
    assert_eq!(told(&["14 15 0500 10"], proof), malformed);
    assert_eq!(told(&["14 19 0500 02"], proof), misfit);
    assert_eq!(told(&["13 19 0500 02"], proof), malformed);
    assert_eq!(told(&["16 02 04 10"], proof), malformed);
    assert_eq!(told(&["15 02 10"], proof), malformed);
    assert_eq!(told(&["10 10"], proof), malformed);
    assert_eq!(told(&[""], proof), malformed);
    let mut outside = case(&["10"], proof);
    outside.records[0].start = u64::MAX;
    assert_eq!(told_of(&outside), malformed);
    let many = ["10"; 33];
    assert_eq!(told(&many[..32], proof), misfit);
    assert_eq!(told(&many, proof), malformed);
}

/// A tree of pairs of this depth.
fn pairs(depth: usize) -> String {
    match depth {
        0 => "25".to_string(),
        _ => format!("22{0}{0}", pairs(depth - 1)),
    }
}

/// A proof is malformed just past its limits, and where a step must infer and does not.
#[test]
fn limits_of_proofs() {
    let malformed = Err((2, 0));
    let levels = |count: usize| "2a".repeat(count - 1) + "25";
    assert_eq!(told(&[], &levels(32)), Err((3, 1)));
    assert_eq!(told(&[], &levels(33)), malformed);
    let facts = |count: usize| "222c".repeat(count - 1) + "2c";
    assert_eq!(told(&[], &facts(16)), Err((3, 0)));
    assert_eq!(told(&[], &facts(17)), malformed);
    let tree = pairs(11);
    assert_eq!(told(&["10"], &tree.replacen("25", "2100", 1)), Err((3, 0)));
    assert_eq!(told(&["10"], &tree.replacen("25", "2100", 2)), malformed);
    for proof in ["2325", "270425", "26 25 25 04 04", "29 25 25", "2b 25 25"] {
        assert_eq!(told(&["10"], proof), malformed);
    }
    assert_eq!(told(&["10"], "26 2100 25 04 000002"), malformed);
    assert_eq!(told(&["10"], "270500 2100"), malformed);
    assert_eq!(told(&["10"], "2101"), malformed);
    assert_eq!(told(&["10"], "2b 2000 25"), malformed);
}

/// A state is malformed just past its length, and where ctime stands in it.
#[test]
fn limits_of_states() {
    let proven = case(&[MAY], "2a 2100");
    let answer = |state: &[u8]| direct(&proven, 0, state, &mut NoWatch);
    let mut state = vec![0; 4092];
    state.extend([0, 0, 1, 2]);
    assert_eq!(answer(&state), Answer::GRANTED);
    state.push(3);
    state[4094] = 2;
    assert_eq!(answer(&state), Answer::refused(7, 0));
    assert_eq!(answer(&[0, 0, 1, 4]), Answer::refused(7, 0));
    assert_eq!(answer(&[0, 0, 5, 2, 2, 2, 2, 2]), Answer::refused(7, 0));
    assert_eq!(answer(&[0, 0, 4, 2, 2, 2, 2]), Answer::GRANTED);
}
