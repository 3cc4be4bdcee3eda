//! Views with their intervals, in small cases made by hand: whose words can be used in a view, and from when until when.

mod by_hand;

use by_hand::{
    if_so, on, pressed, told, Said, ALWAYS, ATOM, EVER, IN_JUNE, IN_MARCH, JUNE, MARCH, MAY, OTHER,
};
use second_opinion::data::{Answer, Time, LATEST};

/// A certificate of March carries a proof in March, although it says that "may" holds at all times.
#[test]
fn a_trainee_in_june() {
    let at_all_times = format!("16 02 03 {MAY}");
    let proof = "2a 29 2100 2000";
    let said: [Said; 1] = [(1, IN_MARCH, &at_all_times)];
    assert_eq!(told(&said, proof), Ok((1000, 2000)));
    assert_eq!(pressed(&said, proof, 1000), Answer::GRANTED);
    assert_eq!(pressed(&said, proof, 2000), Answer::GRANTED);
    assert_eq!(pressed(&said, proof, 999), Answer::refused(4, 2));
    assert_eq!(pressed(&said, proof, 2001), Answer::refused(4, 2));
    assert_eq!(pressed(&said, proof, 3500), Answer::refused(4, 2));
    let lasting: [Said; 1] = [(1, EVER, &at_all_times)];
    assert_eq!(told(&lasting, proof), ALWAYS);
}

/// What a certificate of March says of March serves in March: a 28 leaves the view's interval, which is the press.
#[test]
fn at_in_leaves_the_view_at_the_press() {
    let wants = if_so(&format!("16 {MARCH} {ATOM}"));
    let proof = "2a 26 2100 28 2101 04 04";
    let said: [Said; 2] = [(1, EVER, &wants), (1, IN_MARCH, ATOM)];
    assert_eq!(told(&said, proof), Ok((1000, 2000)));
    assert_eq!(pressed(&said, proof, 999), Answer::refused(4, 5));
    assert_eq!(pressed(&said, proof, 2001), Answer::refused(4, 5));
    let longer: [Said; 2] = [(1, EVER, &wants), (1, on(900, 2500), ATOM)];
    assert_eq!(told(&longer, proof), Ok((900, 2500)));
    let shorter: [Said; 2] = [(1, EVER, &wants), (1, on(1000, 1999), ATOM)];
    assert_eq!(told(&shorter, proof), Err((4, 5)));
    let turned: [Said; 2] = [(1, EVER, &wants), (1, on(1000, 999), ATOM)];
    assert_eq!(told(&turned, proof), Err((4, 5)));
}

/// In a view on June nothing serves that does not last all June, whatever the goal's interval.
#[test]
fn a_view_on_fixed_times() {
    let wants = if_so(&format!("16 {JUNE} 15 000005 {ATOM}"));
    let at_all_times = format!("16 02 03 {ATOM}");
    let proof = "2a 26 2100 28 2a 29 2101 2000 04 04";
    let by_5 = |interval| told(&[(1, EVER, &wants), (5, interval, &at_all_times)], proof);
    assert_eq!(by_5(IN_MARCH), Err((4, 7)));
    assert_eq!(by_5(IN_JUNE), ALWAYS);
    assert_eq!(by_5(EVER), ALWAYS);
    assert_eq!(by_5(on(1000, 4000)), ALWAYS);
    assert_eq!(by_5(on(1000, 3999)), Err((4, 7)));
    assert_eq!(by_5(on(3001, 5000)), Err((4, 7)));
    assert_eq!(by_5(on(3000, 5000)), ALWAYS);
    assert_eq!(by_5(on(3001, 3999)), Err((4, 7)));
    let said: [Said; 2] = [(1, EVER, &wants), (5, IN_MARCH, &at_all_times)];
    for moment in [1500, 3500] {
        assert_eq!(pressed(&said, proof, moment), Answer::refused(4, 7));
    }
}

/// A 28 inside of a says-in moves the goal's interval and leaves the view's.
#[test]
fn at_in_leaves_the_view_on_fixed_times() {
    let wants = if_so(&format!("16 {JUNE} 15 000005 16 {MARCH} {ATOM}"));
    let proof = "2a 26 2100 28 2a 28 2101 04 04";
    let by_5 = |interval| told(&[(1, EVER, &wants), (5, interval, ATOM)], proof);
    assert_eq!(by_5(IN_MARCH), Err((4, 7)));
    assert_eq!(by_5(IN_JUNE), Err((4, 7)));
    assert_eq!(by_5(on(1000, 4000)), ALWAYS);
    assert_eq!(by_5(on(1000, 3999)), Err((4, 7)));
    assert_eq!(by_5(on(1001, 4000)), Err((4, 7)));
    let wants = if_so(&format!("16 {MARCH} 15 000005 16 {JUNE} {ATOM}"));
    let by_5 = |interval| told(&[(1, EVER, &wants), (5, interval, ATOM)], proof);
    assert_eq!(by_5(IN_JUNE), Err((4, 7)));
    assert_eq!(by_5(on(1000, 4000)), ALWAYS);
    assert_eq!(by_5(on(1001, 4000)), Err((4, 7)));
}

/// The principal comes before the interval, and the interval before what is said.
#[test]
fn the_order_of_the_tests() {
    let wants = if_so(&format!("16 {JUNE} 15 000005 {ATOM}"));
    let proof = "2a 26 2100 28 2a 2101 04 04";
    let said = |principal, interval, formula| {
        let certificates = [(1, EVER, &wants[..]), (principal, interval, formula)];
        told(&certificates, proof)
    };
    assert_eq!(said(5, IN_JUNE, ATOM), ALWAYS);
    assert_eq!(said(6, IN_JUNE, ATOM), Err((3, 6)));
    assert_eq!(said(6, IN_MARCH, ATOM), Err((3, 6)));
    assert_eq!(said(1, IN_MARCH, ATOM), Err((3, 6)));
    assert_eq!(said(5, IN_MARCH, OTHER), Err((4, 6)));
    assert_eq!(said(5, on(3001, 4000), OTHER), Err((4, 6)));
    assert_eq!(said(5, IN_JUNE, OTHER), Err((3, 6)));
}

/// Where nobody has the view there is no interval to compare with.
#[test]
fn nobodys_view() {
    let nothing = (Time::PlusInfinity, Time::MinusInfinity);
    assert_eq!(told(&[(1, EVER, MAY)], "2100"), Err((3, 0)));
    assert_eq!(told(&[(1, nothing, MAY)], "2100"), Err((3, 0)));
    assert_eq!(told(&[(1, nothing, MAY)], "2a 2100"), Err((4, 1)));
    assert_eq!(told(&[(1, nothing, MAY)], "29 2100 2000"), Err((3, 1)));
}

/// The times of a 26 are for its goal, not for the view.
#[test]
fn apply_leaves_the_view() {
    let wants = if_so(&format!("16 0100000005dc 0100000005dd {OTHER}"));
    let atom_for_other = format!("12 {ATOM} {OTHER}");
    let proof = "2a 26 2100 28 26 2101 2102 0100000005dc 0100000005dd 04 04";
    let said = |atom| {
        let certificates = [
            (1, EVER, &wants[..]),
            (1, EVER, &atom_for_other[..]),
            (1, atom, ATOM),
        ];
        told(&certificates, proof)
    };
    assert_eq!(said(IN_MARCH), Ok((1000, 2000)));
    assert_eq!(said(on(1500, 1501)), Ok((1500, 1501)));
    assert_eq!(said(on(1501, 1501)), Err((4, 8)));
    assert_eq!(said(EVER), ALWAYS);
}

/// A says-in sets the view to the interval that it checks, and behind it the view is what it was.
#[test]
fn says_in_within_says_in() {
    let inner = format!("16 {MARCH} 15 000006 {ATOM}");
    let wants = if_so(&format!("16 {JUNE} 15 000005 {inner}"));
    let proof = "2a 26 2100 28 2a 28 2a 2101 04 04";
    let by_6 = |interval| told(&[(1, EVER, &wants), (6, interval, ATOM)], proof);
    assert_eq!(by_6(IN_MARCH), ALWAYS);
    assert_eq!(by_6(on(1000, 1999)), Err((4, 8)));
    assert_eq!(by_6(on(1001, 2000)), Err((4, 8)));
    assert_eq!(by_6(IN_JUNE), Err((4, 8)));
    let inner = format!("16 {MARCH} 15 000005 {ATOM}");
    let wants = if_so(&format!("16 {JUNE} 15 000005 11 {inner} {OTHER}"));
    let proof = "2a 26 2100 28 2a 22 28 2a 2101 2102 04 04";
    let both = |march, june| {
        let certificates = [(1, EVER, &wants[..]), (5, march, ATOM), (5, june, OTHER)];
        told(&certificates, proof)
    };
    assert_eq!(both(IN_MARCH, IN_JUNE), ALWAYS);
    assert_eq!(both(IN_JUNE, IN_JUNE), Err((4, 9)));
    assert_eq!(both(IN_MARCH, IN_MARCH), Err((4, 11)));
}

/// A says-in on an interval that ends before it begins sets the view to just that.
#[test]
fn a_view_on_an_interval_turned_round() {
    let wants = if_so(&format!("16 010000000fa0 010000000bb8 15 000005 {ATOM}"));
    let proof = "2a 26 2100 28 2a 2101 04 04";
    let by_5 = |interval| told(&[(1, EVER, &wants), (5, interval, ATOM)], proof);
    assert_eq!(by_5(on(3500, 3500)), ALWAYS);
    assert_eq!(by_5(on(4000, 3000)), ALWAYS);
    assert_eq!(by_5(on(4001, 3000)), Err((4, 6)));
    assert_eq!(by_5(on(4000, 2999)), Err((4, 6)));
}

/// An assumption that is nobody's claim is not compared with the view.
#[test]
fn plain_assumptions_ask_no_view() {
    let of_march = format!("16 {MARCH} {ATOM}");
    let wants = if_so(&format!("16 {JUNE} 15 000005 {of_march}"));
    let proof = "2a 26 2100 28 2a 29 2101 28 2000 04 04";
    let by_5 = |interval| told(&[(1, EVER, &wants), (5, interval, &of_march)], proof);
    assert_eq!(by_5(IN_JUNE), ALWAYS);
    assert_eq!(by_5(IN_MARCH), Err((4, 7)));
    let wants = if_so(&of_march);
    let proof = "2a 29 2101 26 2100 28 2000 04 04";
    assert_eq!(
        told(&[(1, EVER, &wants), (1, EVER, &of_march)], proof),
        ALWAYS
    );
}

/// A claim that is used in the view where it was made must last from the view's start to its end.
#[test]
fn claims_in_the_view_where_they_are_made() {
    let wants = if_so(&format!("16 {MARCH} {ATOM}"));
    let claim = format!("12 10 15 000001 {ATOM}");
    let said: [Said; 2] = [(1, EVER, &wants), (1, EVER, &claim)];
    let proof = |interval: &str| format!("2a 2b 26 2101 25 {interval} 26 2100 28 2000 04 04");
    let in_march = proof(MARCH);
    assert_eq!(told(&said, &in_march), Ok((1000, 2000)));
    assert_eq!(pressed(&said, &in_march, 2000), Answer::GRANTED);
    assert_eq!(pressed(&said, &in_march, 999), Answer::refused(4, 22));
    assert_eq!(pressed(&said, &in_march, 2001), Answer::refused(4, 22));
    assert_eq!(told(&said, &proof("02 03")), ALWAYS);
    assert_eq!(told(&said, &proof("02 0100000007d0")), Ok((0, 2000)));
    assert_eq!(told(&said, &proof("0100000003e8 03")), Ok((1000, LATEST)));
    assert_eq!(told(&said, &proof(JUNE)), Err((4, 22)));
    assert_eq!(told(&said, &proof("03 03")), Err((4, 12)));
    assert_eq!(told(&said, &proof("02 02")), Err((4, 12)));
}

/// A claim that is used in another view of its principal must last from that view's start to its end.
#[test]
fn claims_in_another_view() {
    let wants = if_so(&format!("16 {JUNE} 15 000005 16 {MARCH} {ATOM}"));
    let of = |name: &str| format!("12 10 15 {name} {ATOM}");
    let (of_5, of_6) = (of("000005"), of("000006"));
    let proof = |interval: &str| format!("2a 2b 26 2101 25 {interval} 26 2100 28 2a 28 2000 04 04");
    let by_5 = |interval: &str| told(&[(1, EVER, &wants), (1, EVER, &of_5)], &proof(interval));
    assert_eq!(by_5("0100000003e8 010000000fa0"), ALWAYS);
    assert_eq!(by_5(MARCH), Err((4, 24)));
    assert_eq!(by_5("0100000003e8 010000000f9f"), Err((4, 24)));
    assert_eq!(by_5("010000000bb9 010000000fa0"), Err((4, 24)));
    assert_eq!(by_5("02 04"), Ok((4000, LATEST)));
    let by_6 = |interval: &str| told(&[(1, EVER, &wants), (1, EVER, &of_6)], &proof(interval));
    assert_eq!(by_6("0100000003e8 010000000fa0"), Err((3, 24)));
    assert_eq!(by_6(MARCH), Err((3, 24)));
    let wants = if_so(&format!("16 {MARCH} 15 000005 16 {JUNE} {ATOM}"));
    let by_5 = |interval: &str| told(&[(1, EVER, &wants), (1, EVER, &of_5)], &proof(interval));
    assert_eq!(by_5("04 03"), Ok((0, 1000)));
    assert_eq!(by_5(JUNE), Err((4, 24)));
    assert_eq!(by_5("0100000003e8 010000000fa0"), ALWAYS);
}

/// A claim is compared with the view's interval and not with the one where it was made.
#[test]
fn claims_made_in_a_view_on_june() {
    let wants = if_so(&format!("16 {JUNE} 15 000005 16 {MARCH} 15 000006 {ATOM}"));
    let claim = format!("12 10 15 000006 {ATOM}");
    let proof = format!("2a 26 2100 28 2a 2b 26 2101 25 {MARCH} 28 2a 2000 04 04");
    let by_5 = |interval| told(&[(1, EVER, &wants), (5, interval, &claim)], &proof);
    assert_eq!(by_5(EVER), ALWAYS);
    assert_eq!(by_5(on(1000, 4000)), ALWAYS);
    assert_eq!(by_5(IN_JUNE), Err((4, 7)));
    assert_eq!(by_5(IN_MARCH), Err((4, 8)));
}
