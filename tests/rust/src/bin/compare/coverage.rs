//! What came up in a run, and what should have.

use crate::strengths::Way;
use second_opinion::data::{Pair, Time};
use second_opinion::second::{Clause, Verdict, Watch};
use std::collections::BTreeMap;

/// The calls whose answers are counted.
#[derive(Clone, Copy, Debug, PartialEq, Eq, PartialOrd, Ord)]
pub enum Call {
    Verify,
    Direct,
    DoorOnText,
    DoorOnValue,
    Rewrite,
    Write,
    Program,
}

/// The kinds of times.
#[derive(Clone, Copy, Debug)]
pub enum Kind {
    Moment,
    MinusInfinity,
    PlusInfinity,
    Ctime,
}

/// How often steps were walked, formulas read, clauses tried, orders and strengths asked by one call.
pub struct Walked {
    pub clauses: Vec<[u64; 2]>,
    /// By the kind of the left time, the kind of the right time, and the verdict.
    pub orders: [[[u64; Verdict::ALL.len()]; Kind::ALL.len()]; Kind::ALL.len()],
    /// By the clause that asked, and the verdict.
    pub orders_of: Vec<[u64; Verdict::ALL.len()]>,
    /// By the clause that asked, and the way in which the strength came out.
    pub strengths: BTreeMap<(Clause, Way), u64>,
    pub steps: Vec<u64>,
    pub formulas: Vec<u64>,
}

/// How often everything came up.
pub struct Coverage {
    pub verify: Walked,
    pub direct: Walked,
    pub answers: BTreeMap<(Call, u64), u64>,
    /// The places of the program's 14.
    pub lines: BTreeMap<u64, u64>,
    /// How many facts the issued procaps list.
    pub facts: BTreeMap<u64, u64>,
    /// How often a question was asked, by its name.
    pub asked: BTreeMap<&'static str, u64>,
}

impl Kind {
    /// Every kind there is.
    pub const ALL: [Kind; 4] = [
        Kind::Moment,
        Kind::MinusInfinity,
        Kind::PlusInfinity,
        Kind::Ctime,
    ];

    /// The kind of a time.
    fn of(time: Time) -> Kind {
        match time {
            Time::Moment(_) => Kind::Moment,
            Time::MinusInfinity => Kind::MinusInfinity,
            Time::PlusInfinity => Kind::PlusInfinity,
            Time::Ctime => Kind::Ctime,
        }
    }
}

impl Walked {
    /// Nothing yet.
    fn new() -> Walked {
        Walked {
            clauses: vec![[0; 2]; Clause::ALL.len()],
            orders: Default::default(),
            orders_of: vec![Default::default(); Clause::ALL.len()],
            strengths: BTreeMap::new(),
            steps: vec![0; 256],
            formulas: vec![0; 256],
        }
    }

    /// Adds what came up elsewhere.
    fn add(&mut self, other: &Walked) {
        add_each(
            self.clauses.as_flattened_mut(),
            other.clauses.as_flattened(),
        );
        let orders = self.orders.as_flattened_mut().as_flattened_mut();
        add_each(orders, other.orders.as_flattened().as_flattened());
        add_each(
            self.orders_of.as_flattened_mut(),
            other.orders_of.as_flattened(),
        );
        add_named(&mut self.strengths, &other.strengths);
        add_each(&mut self.steps, &other.steps);
        add_each(&mut self.formulas, &other.formulas);
    }
}

/// Adds each number to the one in its place.
fn add_each(here: &mut [u64], there: &[u64]) {
    for (sum, number) in here.iter_mut().zip(there) {
        *sum += number;
    }
}

/// Adds each number to the one with its name.
fn add_named<K: Ord + Copy>(here: &mut BTreeMap<K, u64>, there: &BTreeMap<K, u64>) {
    for (name, number) in there {
        *here.entry(*name).or_default() += number;
    }
}

impl Watch for Walked {
    fn clause(&mut self, clause: Clause, held: bool) {
        self.clauses[clause as usize][usize::from(held)] += 1;
    }
    fn order(&mut self, clause: Clause, left: Time, right: Time, verdict: Verdict) {
        let [left, right] = [left, right].map(|time| Kind::of(time) as usize);
        self.orders[left][right][verdict as usize] += 1;
        self.orders_of[clause as usize][verdict as usize] += 1;
    }
    fn strength(&mut self, clause: Clause, pairs: &[Pair], asked: (u16, u16), held: bool) {
        for way in Way::of(pairs, asked, held) {
            *self.strengths.entry((clause, way)).or_default() += 1;
        }
    }
    fn step(&mut self, tag: u8) {
        self.steps[usize::from(tag)] += 1;
    }
    fn formula(&mut self, tag: u8) {
        self.formulas[usize::from(tag)] += 1;
    }
}

impl Coverage {
    /// Nothing yet.
    pub fn new() -> Coverage {
        Coverage {
            verify: Walked::new(),
            direct: Walked::new(),
            answers: BTreeMap::new(),
            lines: BTreeMap::new(),
            facts: BTreeMap::new(),
            asked: BTreeMap::new(),
        }
    }

    /// A call gave an answer with this number.
    pub fn answered(&mut self, call: Call, number: u64) {
        *self.answers.entry((call, number)).or_default() += 1;
    }

    /// A question with this name was asked.
    pub fn asked(&mut self, name: &'static str) {
        *self.asked.entry(name).or_default() += 1;
    }

    /// The program found its input malformed at this line.
    pub fn line(&mut self, line: u64) {
        *self.lines.entry(line).or_default() += 1;
    }

    /// A procap was issued that lists so many facts.
    pub fn listed(&mut self, facts: usize) {
        *self.facts.entry(facts as u64).or_default() += 1;
    }

    /// Adds what came up elsewhere.
    pub fn add(&mut self, other: &Coverage) {
        self.verify.add(&other.verify);
        self.direct.add(&other.direct);
        add_named(&mut self.answers, &other.answers);
        add_named(&mut self.lines, &other.lines);
        add_named(&mut self.facts, &other.facts);
        add_named(&mut self.asked, &other.asked);
    }
}
