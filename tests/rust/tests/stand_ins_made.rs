//! The generator's cases about strength: chains of every length lead to words and do not quite, and no list within the
//! limits is refused for its length.

use second_opinion::data::{Answer, Case, Pair, Request};
use second_opinion::generate::{
    about_stand_ins, asking_often, damaged, longest_chain, perhaps_lending, raw, valid,
    valid_by_strength, Random, MOST_ENDS,
};
use second_opinion::second::{self, Clause, NoWatch, Watch};

/// How many seeds are tried.
const SEEDS: u64 = 4000;

/// How often it was asked whether somebody is strong enough, by the step that asks: in all, and of two names that are
/// not the same, how often it held and failed.
#[derive(Default)]
struct Asked {
    all: u64,
    by_claims: [u64; 2],
    by_certificates: [u64; 2],
}

impl Watch for Asked {
    fn strength(&mut self, clause: Clause, _: &[Pair], (one, other): (u16, u16), held: bool) {
        self.all += 1;
        let counts = match clause {
            Clause::ClaimStrongEnough => &mut self.by_claims,
            _ => &mut self.by_certificates,
        };
        if one != other {
            counts[usize::from(held)] += 1;
        }
    }
}

/// The number that verify answers a case with.
fn number(case: &Case, watch: &mut impl Watch) -> u64 {
    Answer::of(&second::verify(case, watch)).number
}

/// One case of each kind from a seed.
fn one_of_each(seed: u64) -> [Case; 4] {
    let mut random = Random::new(seed);
    let by_strength = valid_by_strength(&mut random);
    let weakened = damaged(&mut random, &by_strength);
    let about_stand_ins = about_stand_ins(&mut random);
    let raw = raw(&mut random);
    let lent = perhaps_lending(&mut random, raw);
    [by_strength, weakened, about_stand_ins, lent]
}

#[test]
fn same_seed_same_cases() {
    for seed in 0..SEEDS {
        assert_eq!(one_of_each(seed), one_of_each(seed), "seed {seed}");
    }
}

/// By strength too, the door opens just where the direct check accepts.
#[test]
fn the_door_opens_when_the_direct_check_accepts() {
    let (mut opened, mut shut) = (0, 0);
    for (seed, case) in (0..SEEDS).flat_map(|seed| one_of_each(seed).map(|case| (seed, case))) {
        let issued = second::verify(&case, &mut NoWatch);
        let Some(moment) = second::moments_of(&case).first().copied() else {
            continue;
        };
        let state = [];
        let accepted = second::direct(&case, moment, &state, &mut NoWatch) == Answer::GRANTED;
        let door = |procap| second::door(procap, case.request, moment, &state);
        let opens = issued
            .as_ref()
            .is_ok_and(|procap| door(procap) == Answer::GRANTED);
        assert_eq!(accepted, opens, "seed {seed} at {moment}");
        *if opens { &mut opened } else { &mut shut } += 1;
    }
    assert!(opened > 1000 && shut > 1000, "{opened} opened, {shut} shut");
}

#[test]
fn valid_cases_are_issued_by_strength() {
    let (mut asked, mut issued, mut needed) = (Asked::default(), 0, 0);
    for seed in 0..SEEDS {
        let mut case = valid_by_strength(&mut Random::new(seed));
        let answer = number(&case, &mut asked);
        assert!(![1, 2, 21].contains(&answer), "seed {seed} gives {answer}");
        case.pairs.clear();
        issued += u64::from(answer == 0);
        needed += u64::from(answer == 0 && number(&case, &mut NoWatch) == 3);
    }
    assert!(issued * 10 > SEEDS * 8, "{issued} of {SEEDS}");
    assert!(needed * 10 > SEEDS * 5, "{needed} of {SEEDS}");
    let (claims, certificates) = (asked.by_claims[1], asked.by_certificates[1]);
    assert!(
        claims > 800 && certificates > 4000,
        "{claims}, {certificates}"
    );
}

#[test]
fn damage_to_pairs_takes_strength_away() {
    let (mut asked, mut weakened) = (Asked::default(), 0);
    for seed in 0..SEEDS {
        let mut random = Random::new(seed);
        let case = valid_by_strength(&mut random);
        let hurt = damaged(&mut random, &case);
        let answer = number(&hurt, &mut asked);
        if number(&case, &mut NoWatch) == 0 && hurt.pairs != case.pairs {
            weakened += u64::from(answer == 3);
        }
    }
    assert!(weakened > 100, "{weakened}");
    let [claims, certificates] = [asked.by_claims[0], asked.by_certificates[0]];
    assert!(
        claims > 30 && certificates > 150,
        "{claims}, {certificates}"
    );
}

#[test]
fn cases_about_stand_ins_come_out_in_every_way() {
    let (mut asked, mut answers) = (Asked::default(), [0; 22]);
    for seed in 0..SEEDS {
        let case = about_stand_ins(&mut Random::new(seed));
        answers[number(&case, &mut asked) as usize] += 1;
    }
    for (counts, least) in [(asked.by_claims, 400), (asked.by_certificates, 200)] {
        assert!(counts.iter().all(|count| *count > least), "{counts:?}");
    }
    let [issued, misfits, late] = [answers[0], answers[3], answers[4]];
    assert!(issued > 400 && misfits > 1000 && late > 200, "{answers:?}");
    assert!(answers[5] > 0 && answers[21] > 300, "{answers:?}");
    assert_eq!([answers[1], answers[2]], [0, 0]);
}

#[test]
fn too_many_pairs_come_between_what_else_is_malformed() {
    let mut answers = [0; 22];
    for seed in 0..SEEDS {
        let mut random = Random::new(seed);
        let raw = raw(&mut random);
        let lent = perhaps_lending(&mut random, raw.clone());
        for case in [raw, lent].iter().filter(|case| case.pairs.len() > 128) {
            let without = Case {
                pairs: Vec::new(),
                ..case.clone()
            };
            let otherwise = number(&without, &mut NoWatch);
            let expected = if otherwise == 1 { 1 } else { 21 };
            assert_eq!(number(case, &mut NoWatch), expected, "seed {seed}");
            answers[otherwise as usize] += 1;
        }
    }
    assert!(
        answers[1] > 20 && answers[2] > 20 && answers[3] > 20,
        "{answers:?}"
    );
}

#[test]
fn lists_of_every_length_are_lent() {
    let mut lengths = [0; 301];
    for seed in 0..SEEDS {
        let mut random = Random::new(seed);
        let [one, other] = [valid_by_strength, about_stand_ins].map(|make| make(&mut random));
        let third = valid(&mut random);
        let third = perhaps_lending(&mut random, third);
        for case in [one, other, third] {
            lengths[case.pairs.len()] += 1;
        }
    }
    for length in [0, 1, 2, 3, 127, 128, 129, 130, 256, 257] {
        assert!(lengths[length] > 5, "{length}: {}", lengths[length]);
    }
}

#[test]
fn the_largest_proof_asks_up_the_longest_chain_each_time() {
    let request = Request {
        who: 2,
        what: 7,
        right: 9,
    };
    let (top, lowest_first) = longest_chain(1);
    assert_eq!(lowest_first.len(), 128);
    let mut highest_first = lowest_first.clone();
    highest_first.reverse();
    for (principal, pairs) in [(1, Vec::new()), (top, lowest_first), (top, highest_first)] {
        let mut case = asking_often(request, principal, pairs, MOST_ENDS);
        assert_eq!(case.proof.len(), 4096);
        let mut asked = Asked::default();
        assert_eq!(number(&case, &mut asked), 0);
        assert_eq!(asked.all, 1638);
        case.pairs.pop();
        assert_eq!(
            number(&case, &mut NoWatch),
            if principal == 1 { 0 } else { 3 }
        );
    }
}
