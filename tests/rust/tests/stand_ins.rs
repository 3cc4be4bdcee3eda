//! Who stands above whom by a list of pairs, and how long the list can be, in small cases made by hand.

mod by_hand;

use by_hand::{case, lending, told_by, ALWAYS, EVER, MAY, MOMENTS};
use second_opinion::data::{Answer, Case, LATEST};
use second_opinion::generate::Random;
use second_opinion::second::{direct, verify, NoWatch};

/// A pair, the stronger first.
type Named = (u16, u16);

/// Whether a principal is at least as strong as the administrator by these pairs, as a certificate and as a claim of it
/// show, in verify and in the direct check; where it is not, the answer is 3 at the step that uses the words.
fn above_1(pairs: &[Named], principal: u16) -> bool {
    let claim = format!("15 00{principal:04x} {MAY}");
    let certified = told_by(pairs, &[(principal, EVER, MAY)], "2a 2100");
    let claimed = told_by(pairs, &[(1, EVER, &claim)], "2a 2b 2100 2000");
    let strong = certified == ALWAYS;
    if !strong {
        assert_eq!(certified, Err((3, 1)));
    }
    assert_eq!(claimed, if strong { ALWAYS } else { Err((3, 4)) });
    strong
}

/// A chain of pairs from the first name to the last.
fn chain(names: &[u16]) -> Vec<Named> {
    names.windows(2).map(|two| (two[0], two[1])).collect()
}

/// The chain of 128 pairs from 129 to 1.
fn longest() -> Vec<Named> {
    let names: Vec<u16> = (1..=129).rev().collect();
    chain(&names)
}

/// Pairs with the sides of each changed.
fn turned(pairs: &[Named]) -> Vec<Named> {
    pairs.iter().map(|&(one, other)| (other, one)).collect()
}

/// A case that is issued where 5 stands above 1, with these pairs.
fn by_5(pairs: &[Named]) -> Case {
    lending(pairs, case(&[(5, EVER, MAY)], "2a 2100"))
}

/// The one answer that verify, and the direct check at every moment, give to a case.
fn answer(case: &Case) -> Answer {
    let answer = Answer::of(&verify(case, &mut NoWatch));
    for moment in MOMENTS {
        assert_eq!(direct(case, moment, &[], &mut NoWatch), answer);
    }
    answer
}

/// With no pair everybody is as strong as nobody but himself.
#[test]
fn no_pair() {
    assert!(above_1(&[], 1));
    for other in [0, 2, 5, 257, 65_535] {
        assert!(!above_1(&[], other));
    }
}

/// One pair leads from the stronger to the weaker, and not back.
#[test]
fn one_pair() {
    assert!(above_1(&[(5, 1)], 5));
    assert!(!above_1(&[(1, 5)], 5));
    assert!(!above_1(&[(5, 1)], 6));
    assert!(!above_1(&[(5, 6)], 5));
    assert!(above_1(&[(0, 1)], 0));
    assert!(above_1(&[(65_535, 1)], 65_535));
    assert!(!above_1(&[(5, 257)], 5));
    assert!(!above_1(&[(261, 1)], 5));
    for pairs in [[(5, 1)], [(1, 5)], [(5, 6)]] {
        assert!(above_1(&pairs, 1));
    }
}

/// A chain leads down in any order of its pairs, and not up; a chain that is broken leads nowhere.
#[test]
fn chains() {
    let pairs = chain(&[5, 6, 7, 1]);
    for order in [
        [0, 1, 2],
        [0, 2, 1],
        [1, 0, 2],
        [1, 2, 0],
        [2, 0, 1],
        [2, 1, 0],
    ] {
        let listed = order.map(|place| pairs[place]);
        for name in [5, 6, 7, 1] {
            assert!(above_1(&listed, name));
            assert_eq!(above_1(&turned(&listed), name), name == 1);
        }
        assert!(!above_1(&listed, 8));
    }
    assert!(!above_1(&[(5, 6), (7, 1)], 5));
    assert!(!above_1(&[(5, 6), (7, 6), (7, 1)], 5));
    assert!(!above_1(&[(6, 5), (6, 7), (7, 1)], 5));
    assert!(!above_1(&[(5, 6), (6, 7), (1, 7)], 5));
}

/// In a ring everybody is as strong as everybody, and whoever stands above one of it stands above all.
#[test]
fn rings() {
    let ring = [(5, 6), (6, 1), (1, 5)];
    for name in [5, 6, 1] {
        assert!(above_1(&ring, name));
    }
    let beside = [(7, 5), (1, 8), (5, 6), (6, 1), (1, 5)];
    assert!(above_1(&beside, 7));
    assert!(!above_1(&beside, 8));
    let on_the_way = [(5, 6), (6, 7), (7, 6), (6, 5), (7, 1)];
    for name in [5, 6, 7] {
        assert!(above_1(&on_the_way, name));
    }
    let aside = [(5, 6), (6, 7), (7, 5), (8, 1)];
    for name in [5, 6, 7] {
        assert!(!above_1(&aside, name));
    }
}

/// Pairs of one name, and pairs that are there twice, change nothing.
#[test]
fn pairs_of_one_name_and_twice() {
    assert!(above_1(&[(1, 1)], 1));
    assert!(!above_1(&[(5, 5), (1, 1)], 5));
    assert!(above_1(&[(5, 5), (5, 1), (5, 5), (1, 1)], 5));
    assert!(above_1(&[(5, 6), (5, 6), (6, 6), (6, 1), (6, 1)], 5));
    assert!(!above_1(&[(5, 6), (5, 6), (6, 6), (6, 5)], 5));
}

/// Where two chains lead to the same, either is enough.
#[test]
fn two_ways() {
    let diamond = [(5, 6), (5, 7), (6, 1), (7, 1)];
    for name in [5, 6, 7] {
        assert!(above_1(&diamond, name));
    }
    for missing in 0..4 {
        let mut pairs = diamond.to_vec();
        pairs.remove(missing);
        assert!(above_1(&pairs, 5));
    }
    assert!(!above_1(&[(5, 6), (5, 7)], 5));
    assert!(!above_1(&[(6, 1), (7, 1)], 5));
    assert!(!above_1(&[(6, 5), (7, 5), (1, 6), (1, 7)], 5));
}

/// A chain of 128 pairs leads to its end in whatever order, and not without each of them.
#[test]
fn the_longest_chain() {
    let down = longest();
    let up: Vec<Named> = down.iter().rev().copied().collect();
    let mixed: Vec<Named> = (0..128).map(|place| down[place * 37 % 128]).collect();
    for pairs in [&down, &up, &mixed] {
        assert_eq!(pairs.len(), 128);
        for name in [129, 128, 65, 2, 1] {
            assert!(above_1(pairs, name));
            assert_eq!(above_1(&turned(pairs), name), name == 1);
        }
        assert!(!above_1(pairs, 130));
        for place in [0, 1, 63, 126, 127] {
            let mut broken = pairs.to_vec();
            broken[place] = (129, 129);
            assert!(!above_1(&broken, 129));
            broken[place] = (pairs[place].1, pairs[place].0);
            assert!(!above_1(&broken, 129));
        }
    }
}

/// 128 pairs are taken, whatever they say; 129 are refused, whatever they say.
#[test]
fn how_many_pairs() {
    assert_eq!(answer(&by_5(&[(5, 1); 128])), Answer::GRANTED);
    assert_eq!(answer(&by_5(&[(5, 5); 128])), Answer::refused(3, 1));
    let too_many = Answer::refused(21, 0);
    for count in [129, 130, 256, 257, 16_384, 65_536, 65_537] {
        assert_eq!(answer(&by_5(&vec![(5, 1); count])), too_many);
        assert_eq!(answer(&by_5(&vec![(1, 1); count])), too_many);
    }
    let mut pairs = longest();
    pairs.push((5, 1));
    assert_eq!(answer(&by_5(&pairs)), too_many);
    pairs.remove(0);
    assert_eq!(answer(&by_5(&pairs)), Answer::GRANTED);
}

/// Too many pairs are said after what is wrong with a certificate, and before all else.
#[test]
fn the_order_of_the_answers() {
    let many = |count: usize, proof: &str| {
        let said = [(5, EVER, MAY), (5, EVER, "1c")];
        lending(&vec![(5, 1); count], case(&said, proof))
    };
    let mut malformed = many(129, "2a");
    assert_eq!(answer(&malformed), Answer::refused(1, 1));
    malformed.records = vec![malformed.records[0]; 33];
    assert_eq!(answer(&malformed), Answer::refused(1, 0));
    for (proof, otherwise) in [("2a", (2, 0)), ("2a 25", (3, 1)), ("2a 2100", (0, 0))] {
        let mut case = many(129, proof);
        case.records.pop();
        let pressed = |case: &Case| direct(case, LATEST + 1, &[0], &mut NoWatch);
        assert_eq!(answer(&case), Answer::refused(21, 0));
        assert_eq!(pressed(&case), Answer::refused(21, 0));
        case.pairs.pop();
        let (number, place) = otherwise;
        assert_eq!(answer(&case), Answer::refused(number, place));
        let number = if number == 2 { 2 } else { 11 };
        assert_eq!(pressed(&case), Answer::refused(number, 0));
    }
}

/// What a table of all chains says, filled by trying every name between every two others, is what the checker says.
#[test]
fn as_a_table_says() {
    const NAMES: usize = 7;
    let mut strong = 0;
    for seed in 0..400 {
        let mut random = Random::new(seed);
        let mut name = || 1 + random.below(NAMES as u64) as u16;
        let pairs: Vec<Named> = (0..seed % 12).map(|_| (name(), name())).collect();
        let mut table = [[false; NAMES + 1]; NAMES + 1];
        (1..=NAMES).for_each(|name| table[name][name] = true);
        for (stronger, weaker) in &pairs {
            table[usize::from(*stronger)][usize::from(*weaker)] = true;
        }
        for middle in 1..=NAMES {
            for (first, last) in (1..=NAMES).flat_map(|one| (1..=NAMES).map(move |two| (one, two)))
            {
                table[first][last] |= table[first][middle] && table[middle][last];
            }
        }
        for (name, row) in table.iter().enumerate().skip(1) {
            assert_eq!(above_1(&pairs, name as u16), row[1], "{pairs:?}");
            strong += u64::from(row[1]);
        }
    }
    assert!(strong > 800, "{strong}");
}
