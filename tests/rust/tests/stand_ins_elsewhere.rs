//! What goes by strength and what does not: the test of a claim or a certificate in a view, and nothing else. In small
//! cases made by hand.

mod by_hand;

use by_hand::{
    case, if_so, lending, on, told_by, Said, ALWAYS, ATOM, EVER, IN_JUNE, IN_MARCH, JUNE, MARCH,
    MAY, OTHER,
};
use second_opinion::data::{Answer, Time, LATEST};
use second_opinion::second::{case_of, direct, moments_of, printed, verify, NoWatch};

/// 6 stands above 5, and 5 above 6.
const SIX_FIRST: (u16, u16) = (6, 5);
const FIVE_FIRST: (u16, u16) = (5, 6);

/// What 6 says is not what 5 says where the two are compared, whoever is stronger; in the view of 5 a claim of 6 serves.
#[test]
fn says_is_compared_by_names() {
    let wants = if_so(&format!("15 000005 {ATOM}"));
    let of_6 = format!("15 000006 {ATOM}");
    let said: [Said; 2] = [(1, EVER, &wants), (1, EVER, &of_6)];
    let compared = "2a 26 2100 2101 04 04";
    let claimed = "2a 2b 2101 26 2100 2a 2000 04 04";
    for pairs in [
        &[][..],
        &[SIX_FIRST],
        &[FIVE_FIRST],
        &[SIX_FIRST, FIVE_FIRST],
    ] {
        assert_eq!(told_by(pairs, &said, compared), Err((3, 4)));
        let strong = pairs.contains(&SIX_FIRST);
        let expected = if strong { ALWAYS } else { Err((3, 8)) };
        assert_eq!(told_by(pairs, &said, claimed), expected);
    }
}

/// "Says" inside of other formulas is compared by names too, and so are the arguments of atoms.
#[test]
fn names_inside_are_compared_as_names() {
    let both = [SIX_FIRST, FIVE_FIRST];
    let proof = "2a 26 2100 2101 04 04";
    for (wanted, inferred) in [
        (
            format!("11 10 15 000005 {ATOM}"),
            format!("11 10 15 000006 {ATOM}"),
        ),
        (
            format!("16 02 03 15 000005 {ATOM}"),
            format!("16 02 03 15 000006 {ATOM}"),
        ),
        ("17012c01 000005".to_string(), "17012c01 000006".to_string()),
        ("13 15 000005 10".to_string(), "13 15 000006 10".to_string()),
    ] {
        let wants = if_so(&wanted);
        let said: [Said; 2] = [(1, EVER, &wants), (1, EVER, &inferred)];
        assert_eq!(told_by(&both, &said, proof), Err((3, 4)));
        let same: [Said; 2] = [(1, EVER, &wants), (6, EVER, &wanted)];
        assert_eq!(told_by(&both, &same, proof), Err((3, 4)));
        assert_eq!(told_by(&[(6, 5), (5, 1)], &same, proof), ALWAYS);
    }
}

/// The request is for 2, and what is granted to 3 is not granted to 2, whoever is stronger.
#[test]
fn the_request_is_compared_by_names() {
    let for_3 = "17006403000003000007000009";
    let pairs = [(3, 2), (2, 3), (1, 2), (2, 1)];
    assert_eq!(told_by(&pairs, &[(1, EVER, for_3)], "2a 2100"), Err((3, 1)));
    assert_eq!(told_by(&pairs, &[(2, EVER, MAY)], "2a 2100"), ALWAYS);
    assert_eq!(told_by(&pairs, &[(3, EVER, MAY)], "2a 2100"), ALWAYS);
}

/// A view is its own principal's: whoever is below it has no say in it.
#[test]
fn the_view_is_of_the_one_who_says() {
    let wants = if_so(&format!("15 000005 {ATOM}"));
    let proof = "2a 26 2100 2a 2101 04 04";
    let by = |principal, pairs: &[(u16, u16)]| {
        let said: [Said; 2] = [(1, EVER, &wants), (principal, EVER, ATOM)];
        told_by(pairs, &said, proof)
    };
    assert_eq!(by(5, &[]), ALWAYS);
    assert_eq!(by(1, &[]), Err((3, 5)));
    assert_eq!(by(1, &[(1, 5)]), ALWAYS);
    assert_eq!(by(1, &[(5, 1)]), Err((3, 5)));
    assert_eq!(by(6, &[(6, 1)]), Err((3, 5)));
    assert_eq!(by(6, &[(6, 1), (1, 5)]), ALWAYS);
}

/// Where nobody has the view no pair helps.
#[test]
fn nobodys_view() {
    let pairs = [(1, 0), (0, 1), (1, 1), (0, 0), (5, 1)];
    for principal in [0, 1, 5] {
        let said: [Said; 1] = [(principal, EVER, MAY)];
        assert_eq!(told_by(&pairs, &said, "2100"), Err((3, 0)));
    }
}

/// An assumption that is nobody's claim stays outside of a view, whatever the pairs.
#[test]
fn plain_assumptions_ask_no_strength() {
    let wants = if_so(&format!("15 000005 {ATOM}"));
    let at_all_times = format!("16 02 03 {ATOM}");
    let said: [Said; 2] = [(1, EVER, &wants), (1, EVER, &at_all_times)];
    let pairs = [(1, 5), (5, 1)];
    let outside = "2a 29 2101 26 2100 2a 2000 04 04";
    assert_eq!(told_by(&pairs, &said, outside), Err((3, 8)));
    let inside = "2a 26 2100 2a 29 2101 2000 04 04";
    assert_eq!(told_by(&pairs, &said, inside), ALWAYS);
}

/// The strength comes before the interval, and the interval before what is said: for a certificate.
#[test]
fn intervals_come_after_strength_for_certificates() {
    let wants = if_so(&format!("16 {JUNE} 15 000005 {ATOM}"));
    let proof = "2a 26 2100 28 2a 2101 04 04";
    let said = |pairs: &[(u16, u16)], interval, formula| {
        let certificates = [(1, EVER, &wants[..]), (6, interval, formula)];
        told_by(pairs, &certificates, proof)
    };
    let strong = [(6, 7), (7, 5)];
    assert_eq!(said(&strong, IN_JUNE, ATOM), ALWAYS);
    assert_eq!(said(&strong, IN_MARCH, ATOM), Err((4, 6)));
    assert_eq!(said(&strong, on(3001, 4000), OTHER), Err((4, 6)));
    assert_eq!(said(&strong, on(3000, 3999), OTHER), Err((4, 6)));
    assert_eq!(said(&strong, IN_JUNE, OTHER), Err((3, 6)));
    let weak = [(7, 6), (5, 7)];
    for interval in [IN_JUNE, IN_MARCH, (Time::PlusInfinity, Time::MinusInfinity)] {
        assert_eq!(said(&weak, interval, ATOM), Err((3, 6)));
    }
}

/// The same for a claim.
#[test]
fn intervals_come_after_strength_for_claims() {
    let wants = if_so(&format!("16 {JUNE} 15 000005 16 {MARCH} {ATOM}"));
    let of_6 = format!("12 10 15 000006 {ATOM}");
    let proof = |interval: &str| format!("2a 2b 26 2101 25 {interval} 26 2100 28 2a 28 2000 04 04");
    let on = |pairs: &[(u16, u16)], interval: &str| {
        let certificates = [(1, EVER, &wants[..]), (1, EVER, &of_6[..])];
        told_by(pairs, &certificates, &proof(interval))
    };
    assert_eq!(on(&[SIX_FIRST], "0100000003e8 010000000fa0"), ALWAYS);
    assert_eq!(on(&[SIX_FIRST], MARCH), Err((4, 24)));
    assert_eq!(on(&[SIX_FIRST], "010000000bb9 010000000fa0"), Err((4, 24)));
    assert_eq!(on(&[SIX_FIRST], "02 04"), Ok((4000, LATEST)));
    assert_eq!(on(&[FIVE_FIRST], "0100000003e8 010000000fa0"), Err((3, 24)));
    assert_eq!(on(&[FIVE_FIRST], MARCH), Err((3, 24)));
}

/// The interval of whoever stands above is compared, and of nobody on the way; the procap is for when it lasts.
#[test]
fn a_stand_in_for_march() {
    let said: [Said; 2] = [(6, IN_MARCH, MAY), (5, IN_JUNE, MAY)];
    let pairs = [(6, 5), (5, 1)];
    assert_eq!(told_by(&pairs, &said, "2a 2100"), Ok((1000, 2000)));
    assert_eq!(told_by(&pairs, &said, "2a 2101"), Ok((3000, 4000)));
    let case = lending(&pairs, case(&said, "2a 2100"));
    let pressed = |moment| direct(&case, moment, &[], &mut NoWatch);
    assert_eq!(pressed(2000), Answer::GRANTED);
    assert_eq!(pressed(2001), Answer::refused(4, 1));
    assert_eq!(moments_of(&case), [1000, 2000, 3000, 4000]);
}

/// The program has no line for pairs and lends none.
#[test]
fn the_program_lends_no_pairs() {
    let input = |by: u16| {
        let certificate = format!("certs=1\nby={by}\nfrom=-\nto=+\nsays={MAY}\n");
        format!("who=2\nwhat=7\nright=9\n{certificate}proof=2a2100\n").into_bytes()
    };
    assert!(printed(&input(1)).starts_with(b"procap=1\n"));
    assert_eq!(printed(&input(5)), b"refused=3\nplace=1\n");
    let case = case_of(&input(5)).expect("it is a case");
    assert!(case.pairs.is_empty());
    let lent = lending(&[(5, 1)], case);
    assert!(verify(&lent, &mut NoWatch).is_ok());
}
