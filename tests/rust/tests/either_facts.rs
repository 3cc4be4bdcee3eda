//! What a procap lists of a proof by cases, and how its state steps are counted, in small cases made by hand.

mod by_hand;

use by_hand::{briefly, by_rule, bytes, case_of_1, if_so, issued, ALWAYS, ATOM};
use second_opinion::data::{Answer, Case, LATEST};
use second_opinion::second::{direct, facts_wanted, moments_of, text_of, NoWatch};

/// 200(7), 201(8) and 202(9) as formulas, and as a state.
const SEVEN: &str = "1800c801 000007";
const EIGHT: &str = "1800c901 000008";
const NINE: &str = "1800ca01 000009";
const STATE: [&str; 3] = ["00c801000007", "00c901000008", "00ca01000009"];

/// A branch that shows the atom by a certificate that asks for a fact.
fn by_fact(certificate: &str) -> String {
    format!("26 {certificate} 2c 04 04")
}

/// A case shown by cases, from an or that a fact may lead to, each of them by one fact.
fn case(either: &str, first: &str, left: &str, right: &str) -> Case {
    let for_atom = |fact: &str| format!("12 {fact} {ATOM}");
    let (seven, eight) = (for_atom(SEVEN), for_atom(EIGHT));
    let said = [&if_so(ATOM)[..], either, &seven, &eight];
    let (left, right) = (by_fact(left), by_fact(right));
    case_of_1(&said, &by_rule(&format!("30 {first} {left} {right}")))
}

/// The text of what verify issues, the direct check being with the door in every state.
fn text(case: &Case) -> String {
    let [seven, eight, nine] = STATE;
    let two = [seven, eight].concat();
    let all = STATE.concat();
    let issued = issued(case, &["", seven, eight, nine, &two, &all]);
    let text = text_of(&issued.expect("it is issued")).expect("it has a text");
    String::from_utf8(text).expect("it is plain")
}

/// The text for the whole clock with these facts.
fn listing(facts: &[&str]) -> String {
    let lines: String = facts.iter().map(|fact| format!("fact={fact}\n")).collect();
    let head = "procap=1\nwho=2\nwhat=7\nright=9\nfrom=0";
    format!("{head}\nto={LATEST}\nfacts={}\n{lines}", facts.len())
}

/// A procap lists what the left case needs, then what the right one does, each fact once.
#[test]
fn facts_of_both_cases() {
    let either = "1a 10 10";
    let listed = |left, right| text(&case(either, "2101", left, right));
    assert_eq!(listed("2102", "2103"), listing(&["200 n7", "201 n8"]));
    assert_eq!(listed("2103", "2102"), listing(&["201 n8", "200 n7"]));
    assert_eq!(listed("2102", "2102"), listing(&["200 n7"]));
    let for_nine = format!("12 {NINE} {either}");
    let asked = case(&for_nine, "26 2101 2c 02 03", "2102", "2103");
    assert_eq!(text(&asked), listing(&["202 n9", "200 n7", "201 n8"]));
    let wanted = facts_wanted(&asked, 1500);
    let predicates: Vec<u16> = wanted.iter().map(|fact| fact.predicate).collect();
    assert_eq!(predicates, [202, 200, 201]);
}

/// The direct check asks for the facts of both cases, in the same order.
#[test]
fn facts_missing_at_a_press() {
    let two = case("1a 10 10", "2101", "2102", "2103");
    let answer = |state: &str| direct(&two, 1500, &bytes(state), &mut NoWatch);
    let [seven, eight, _] = STATE;
    assert_eq!(answer(&[eight, seven].concat()), Answer::GRANTED);
    assert_eq!(answer(seven), Answer::refused(10, 16));
    assert_eq!(answer(eight), Answer::refused(10, 10));
    assert_eq!(answer(""), Answer::refused(10, 10));
    let alike = case("1a 10 10", "2101", "2103", "2103");
    let answer = |state: &str| direct(&alike, 1500, &bytes(state), &mut NoWatch);
    assert_eq!(answer(eight), Answer::GRANTED);
    assert_eq!(answer(seven), Answer::refused(10, 10));
}

/// What leads to falsity is listed, and what a side asks for is.
#[test]
fn facts_for_falsity_and_for_a_side() {
    let for_falsity = format!("12 {SEVEN} 1b");
    let absurd = case_of_1(&[&for_falsity], "2a 31 26 2100 2c 02 03");
    assert_eq!(text(&absurd), listing(&["200 n7"]));
    let wants = if_so(&format!("1a {SEVEN} {EIGHT}"));
    let left = case_of_1(&[&wants], &by_rule("2e 2c"));
    assert_eq!(text(&left), listing(&["200 n7"]));
    let right = case_of_1(&[&wants], &by_rule("2f 2c"));
    assert_eq!(text(&right), listing(&["201 n8"]));
}

/// Sixteen state steps may stand in the three parts of a 30, however they are spread, and no more.
#[test]
fn state_steps_are_counted_in_all_parts() {
    let facts = |count: usize| "11 1800c800".repeat(count - 1) + "1800c800";
    let states = |count: usize| "222c".repeat(count - 1) + "2c";
    let told = |first: usize, left: usize, right: usize| {
        let either = format!("12 {} 1a 10 10", facts(first));
        let said = [
            if_so(ATOM),
            either,
            format!("12 {} {ATOM}", facts(left)),
            format!("12 {} {ATOM}", facts(right)),
        ];
        let [first, left, right] = [first, left, right].map(states);
        let inferred = format!("26 2101 {first} 04 04");
        let branches = format!("26 2102 {left} 04 04 26 2103 {right} 04 04");
        let proof = by_rule(&format!("30 {inferred} {branches}"));
        briefly(issued(
            &case_of_1(&said.each_ref().map(|one| &one[..]), &proof),
            &[""],
        ))
    };
    for (first, left, right) in [(1, 7, 8), (5, 5, 6), (1, 1, 14), (1, 14, 1), (14, 1, 1)] {
        assert_eq!(told(first, left, right), ALWAYS);
        assert_eq!(told(first + 1, left, right), Err((2, 0)));
        assert_eq!(told(first, left + 1, right), Err((2, 0)));
        assert_eq!(told(first, left, right + 1), Err((2, 0)));
    }
}

/// The moments in ors and in every part of their steps are moments of the case.
#[test]
fn moments_in_ors_and_their_steps() {
    let moment = |number: u8| format!("01 00000000{number:02x}");
    let about = |number| format!("17012c01 {}", moment(number));
    let said = [format!("1a {} 1a 1b {}", about(1), about(2))];
    let applied = |number| format!("26 2100 25 {} {}", moment(number), moment(number + 1));
    let cases = format!("30 {} 2e {} 2f {}", applied(3), applied(5), applied(7));
    let proof = format!("2a 22 {cases} 31 {}", applied(9));
    let case = case_of_1(&[&said[0]], &proof);
    assert_eq!(moments_of(&case), (1..=10).collect::<Vec<u64>>());
}
