//! The generator keeps its promises: same seed, same cases; valid cases are within the limits and mostly issued; valid
//! and damaged cases together try every clause both ways.

use second_opinion::data::{Answer, Case, Time, LATEST};
use second_opinion::generate::{
    about_an_or, at_a_limit, damaged, damaged_bytes, in_a_view, input_of, raw, valid, Random,
};
use second_opinion::second::{self, Clause, NoWatch, Watch};
use std::collections::{BTreeMap, BTreeSet};

/// How many seeds are tried.
const SEEDS: u64 = 2000;

/// One case of each kind from a seed.
fn one_of_each(seed: u64) -> [Case; 6] {
    let mut random = Random::new(seed);
    let shown = valid(&mut random);
    let hurt = damaged(&mut random, &shown);
    let raw = raw(&mut random);
    let at_a_limit = at_a_limit(&mut random);
    let in_a_view = in_a_view(&mut random);
    let about_an_or = about_an_or(&mut random);
    [shown, hurt, raw, at_a_limit, in_a_view, about_an_or]
}

/// The number that verify answers a case with.
fn number(case: &Case, watch: &mut impl Watch) -> u64 {
    match second::verify(case, watch) {
        Ok(_) => 0,
        Err(refusal) => refusal.number,
    }
}

/// Whether a record may have the time.
fn in_range(time: Time) -> bool {
    match time {
        Time::Moment(moment) => moment <= LATEST,
        Time::Ctime => false,
        _ => true,
    }
}

/// What came up in walks.
#[derive(Default)]
struct Seen {
    clauses: BTreeSet<(Clause, bool)>,
    steps: BTreeSet<u8>,
    formulas: BTreeSet<u8>,
    numbers: BTreeSet<u64>,
}

impl Watch for Seen {
    fn clause(&mut self, clause: Clause, held: bool) {
        self.clauses.insert((clause, held));
    }
    fn step(&mut self, tag: u8) {
        self.steps.insert(tag);
    }
    fn formula(&mut self, tag: u8) {
        self.formulas.insert(tag);
    }
}

/// How often clauses came out in each way.
#[derive(Default)]
struct Counted(BTreeMap<(Clause, bool), u64>);

impl Watch for Counted {
    fn clause(&mut self, clause: Clause, held: bool) {
        *self.0.entry((clause, held)).or_default() += 1;
    }
}

impl Counted {
    /// Sees to it that clauses came out both ways, more than so often each.
    fn both_ways(&self, clauses: [Clause; 4], more_than: u64) {
        for clause in clauses {
            for held in [true, false] {
                let count = self.0.get(&(clause, held)).copied().unwrap_or(0);
                assert!(count > more_than, "{clause:?} {held}: {count}");
            }
        }
    }
}

/// Whether words are used within the interval of a view, or beyond either end of it.
const IN_VIEWS: [Clause; 4] = [
    Clause::ClaimFromViewsStart,
    Clause::ClaimToViewsEnd,
    Clause::CertificateFromViewsStart,
    Clause::CertificateToViewsEnd,
];

/// Whether the steps for an or and for falsity have what they ask for.
const ABOUT_ORS: [Clause; 4] = [
    Clause::LeftGoal,
    Clause::RightGoal,
    Clause::CasesInferred,
    Clause::FalsityInferred,
];

/// What valid and damaged cases must bring up: a fact that is met is listed, and verify asks no state.
fn wanted() -> Vec<(Clause, bool)> {
    let mut all = Vec::new();
    for clause in Clause::ALL {
        if *clause != Clause::FactStands {
            all.push((*clause, true));
        }
        if !matches!(clause, Clause::FactStands | Clause::FactListed) {
            all.push((*clause, false));
        }
    }
    all
}

#[test]
fn same_seed_same_cases() {
    for seed in 0..SEEDS {
        assert_eq!(one_of_each(seed), one_of_each(seed), "seed {seed}");
    }
}

#[test]
fn valid_cases_are_within_the_limits() {
    for seed in 0..SEEDS {
        let case = valid(&mut Random::new(seed));
        assert!(case.proof.len() <= 4096 && case.records.len() <= 32);
        for record in &case.records {
            assert!(record.length <= 256 && in_range(record.from) && in_range(record.to));
            assert!(record.start + record.length <= case.buffer.len() as u64);
        }
        let answer = number(&case, &mut NoWatch);
        assert!(answer != 1 && answer != 2, "seed {seed} gives {answer}");
    }
}

#[test]
fn most_valid_cases_are_issued() {
    let issued = (0..SEEDS)
        .filter(|seed| number(&valid(&mut Random::new(*seed)), &mut NoWatch) == 0)
        .count() as u64;
    assert!(issued * 10 > SEEDS * 8, "{issued} of {SEEDS}");
}

#[test]
fn every_clause_comes_up_both_ways() {
    let mut seen = Seen::default();
    for seed in 0..100_000 {
        let [shown, hurt, ..] = one_of_each(seed);
        for case in [shown, hurt] {
            let answer = number(&case, &mut seen);
            seen.numbers.insert(answer);
        }
        if seed % 1000 == 999 && wanted().iter().all(|one| seen.clauses.contains(one)) {
            break;
        }
    }
    let missing: Vec<_> = (wanted().into_iter())
        .filter(|one| !seen.clauses.contains(one))
        .collect();
    assert!(missing.is_empty(), "{missing:?}");
    assert!(seen.steps.iter().copied().eq(0x20..=0x31));
    assert!(seen.formulas.iter().copied().eq(0x10..=0x1b));
    assert!(seen.numbers.iter().copied().eq(0..=5));
}

#[test]
fn words_leave_views_and_steps_miss_ors_in_damaged_cases() {
    let mut counted = Counted::default();
    for seed in 0..10_000 {
        let [shown, hurt, ..] = one_of_each(seed);
        number(&shown, &mut counted);
        number(&hurt, &mut counted);
    }
    counted.both_ways(IN_VIEWS, 15);
    counted.both_ways(ABOUT_ORS, 15);
}

#[test]
fn words_leave_views_in_cases_about_them() {
    let mut counted = Counted::default();
    let mut answers = [0; 6];
    for seed in 0..SEEDS {
        let case = in_a_view(&mut Random::new(seed));
        answers[number(&case, &mut counted) as usize] += 1;
    }
    counted.both_ways(IN_VIEWS, 30);
    let [issued, malformed, no_proof, misfits, late, never] = answers;
    assert!(issued > 400 && misfits > 200 && late > 200, "{answers:?}");
    assert!(malformed == 0 && no_proof == 0 && never > 0, "{answers:?}");
}

#[test]
fn steps_miss_ors_in_cases_about_them() {
    let mut counted = Counted::default();
    let mut answers = [0; 6];
    for seed in 0..SEEDS {
        let case = about_an_or(&mut Random::new(seed));
        answers[number(&case, &mut counted) as usize] += 1;
    }
    counted.both_ways(ABOUT_ORS, 30);
    let [issued, malformed, no_proof, misfits, late, never] = answers;
    assert!(issued > 200 && misfits > 400 && late > 100, "{answers:?}");
    assert!(malformed == 0 && no_proof > 100 && never > 0, "{answers:?}");
}

/// Sees to it that the door opens just where the direct check accepts, in cases of one kind and in these states.
fn door_and_direct_check(make: fn(&mut Random) -> Case, states: &[&[u8]]) {
    let (mut opened, mut shut) = (0, 0);
    for seed in 0..SEEDS {
        let case = make(&mut Random::new(seed));
        let issued = second::verify(&case, &mut NoWatch);
        let moments = second::moments_of(&case).into_iter();
        for moment in moments.flat_map(|one| [one.saturating_sub(1), one, one + 1]) {
            for state in states {
                let accepted =
                    second::direct(&case, moment, state, &mut NoWatch) == Answer::GRANTED;
                let door = |procap| second::door(procap, case.request, moment, state);
                let opens = issued
                    .as_ref()
                    .is_ok_and(|procap| door(procap) == Answer::GRANTED);
                assert_eq!(accepted, opens, "seed {seed} at {moment}");
                *if opens { &mut opened } else { &mut shut } += 1;
            }
        }
    }
    assert!(opened > 2000 && shut > 2000, "{opened} opened, {shut} shut");
}

#[test]
fn in_views_the_door_opens_when_the_direct_check_accepts() {
    door_and_direct_check(in_a_view, &[&[]]);
}

#[test]
fn by_cases_the_door_opens_when_the_direct_check_accepts() {
    let [one, other] = [[0, 200, 1, 0, 0, 0], [0, 200, 1, 0, 0, 1]];
    let both = [one, other].concat();
    door_and_direct_check(about_an_or, &[&[], &one, &other, &both]);
}

#[test]
fn damage_changes_something() {
    for seed in 0..SEEDS {
        let mut random = Random::new(seed);
        let case = valid(&mut random);
        assert_ne!(damaged(&mut random, &case), case);
        assert_ne!(damaged_bytes(&mut random, &case.proof), case.proof);
    }
}

#[test]
fn inputs_say_their_cases() {
    let mut said = 0;
    for seed in 0..SEEDS {
        for mut case in one_of_each(seed) {
            case.pairs.clear();
            let Some(input) = input_of(&case) else {
                continue;
            };
            said += 1;
            let printed = match second::verify(&case, &mut NoWatch) {
                Ok(procap) => second::text_of(&procap).expect("an issued procap has a text"),
                Err(refusal) => {
                    let (number, place) = (refusal.number, refusal.place);
                    format!("refused={number}\nplace={place}\n").into_bytes()
                }
            };
            assert_eq!(second::printed(&input), printed, "seed {seed}");
        }
    }
    assert!(said > SEEDS);
}
