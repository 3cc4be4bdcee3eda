//! The walk over a proof: steps that infer a judgement, and steps that check a goal.

use super::assuming::Assumption;
use super::certificates::Certificate;
use super::clauses::{Clause, Watch};
use super::comparing::serve;
use super::formulas::{instance, Formula};
use super::reading::Reading;
use super::steps::{Check, Checking, Inference, Inferring, Side, Step};
use super::terms::sort_of;
use super::times::Interval;
use super::trying::Trial;
use super::viewing::{View, Viewer, Words};
use crate::data::{Answer, Case, Term, Time};
use std::rc::Rc;

/// A formula that holds on an interval.
#[derive(Clone, Debug)]
pub struct Judgement {
    pub formula: Rc<Formula>,
    pub interval: Interval,
}

/// A formula that is to be shown on an interval.
#[derive(Clone, Copy)]
pub struct Goal<'g> {
    pub formula: &'g Formula,
    pub interval: Interval,
}

/// One walk over a proof.
pub struct Walk<'a, R, W> {
    pub certificates: &'a [Certificate],
    pub assumptions: Vec<Assumption>,
    pub trial: Trial<'a, R, W>,
}

/// Walks the proof of a case up to its first fault, with its certificates as they were read.
pub fn walk<R: Reading, W: Watch>(
    case: &Case,
    certificates: &[Certificate],
    proof: &Step,
    reading: &mut R,
    watch: &mut W,
) -> Result<(), Answer> {
    let mut walk = Walk {
        certificates,
        assumptions: Vec::new(),
        trial: Trial::new(&case.pairs, reading, watch),
    };
    let goal = Goal {
        formula: &Formula::wanted(case.request),
        interval: Interval {
            from: Time::Ctime,
            to: Time::Ctime,
        },
    };
    walk.check(proof, goal, View::NOBODYS)
}

impl<R: Reading, W: Watch> Walk<'_, R, W> {
    /// The judgement that a step infers in a view.
    pub fn infer(&mut self, step: &Inference, view: View) -> Result<Judgement, Answer> {
        let offset = step.offset;
        self.trial.step(step.rule.tag());
        match &step.rule {
            Inferring::Assumption(index) => self.assumption(*index, view, offset),
            Inferring::Certificate(index) => self.certificate(*index, view, offset),
            Inferring::First(inference) => self.first(inference, view, offset),
            Inferring::Second(inference) => self.second(inference, view, offset),
            Inferring::Apply(implication, condition, interval) => {
                self.apply(implication, condition, *interval, view, offset)
            }
            Inferring::Instance(term, inference) => self.instance(*term, inference, view, offset),
        }
    }

    /// Goes on where a step shows a goal in a view.
    pub fn check(&mut self, step: &Step, goal: Goal, view: View) -> Result<(), Answer> {
        match step {
            Step::Infers(inference) => {
                let inferred = self.infer(inference, view)?;
                serve(&mut self.trial, &inferred, goal, inference.offset)
            }
            Step::Checks(check) => self.check_by_rule(check, goal, view),
        }
    }

    /// Goes on where a checking step shows a goal in a view.
    fn check_by_rule(&mut self, step: &Check, goal: Goal, view: View) -> Result<(), Answer> {
        let offset = step.offset;
        self.trial.step(step.rule.tag());
        match &step.rule {
            Checking::Pair(first, second) => self.pair(first, second, goal, view, offset),
            Checking::Top => {
                let top = matches!(goal.formula, Formula::Top);
                self.trial.fits(Clause::TopGoal, top, offset)
            }
            Checking::AtIn(inside) => self.at_in(inside, goal, view, offset),
            Checking::AtOut(inference, rest) => self.at_out(inference, rest, goal, view, offset),
            Checking::SaysIn(inside) => self.says_in(inside, goal, offset),
            Checking::SaysOut(inference, rest) => {
                self.says_out(inference, rest, goal, view, offset)
            }
            Checking::State => self.state(goal, offset),
            Checking::Order => self.order(goal, offset),
            Checking::Side(side, inside) => self.side(*side, inside, goal, view, offset),
            Checking::Cases(inference, left, right) => {
                self.cases(inference, [left, right], goal, view, offset)
            }
            Checking::ByFalsity(inference) => self.by_falsity(inference, view, offset),
        }
    }

    /// 21: what the certificate with this index says, if it can be used in the view.
    fn certificate(&mut self, index: usize, view: View, offset: u64) -> Result<Judgement, Answer> {
        let certificate = self.certificates.get(index).ok_or(Answer::refused(2, 0))?;
        let (principal, interval) = (certificate.principal, certificate.judgement.interval);
        let (trial, words) = (&mut self.trial, Words::OF_A_CERTIFICATE);
        view.usable(trial, words, principal, interval, offset)?;
        Ok(certificate.judgement.clone())
    }

    /// 23: the first side of a conjunction.
    fn first(&mut self, from: &Inference, view: View, offset: u64) -> Result<Judgement, Answer> {
        let inferred = self.infer(from, view)?;
        let sides = inferred.formula.conjunction();
        let (first, _) = self
            .trial
            .found(Clause::FirstOfConjunction, sides, offset)?;
        Ok(inferred.with(first))
    }

    /// 24: the second side of a conjunction.
    fn second(&mut self, from: &Inference, view: View, offset: u64) -> Result<Judgement, Answer> {
        let inferred = self.infer(from, view)?;
        let sides = inferred.formula.conjunction();
        let (_, second) = self
            .trial
            .found(Clause::SecondOfConjunction, sides, offset)?;
        Ok(inferred.with(second))
    }

    /// 26: the outcome of an implication on an interval within its own, its condition being shown there.
    fn apply(
        &mut self,
        implication: &Inference,
        shown: &Step,
        interval: Interval,
        view: View,
        offset: u64,
    ) -> Result<Judgement, Answer> {
        let Judgement {
            formula,
            interval: around,
        } = self.infer(implication, view)?;
        let sides = formula.implication();
        let (condition, outcome) = self.trial.found(Clause::ApplyImplication, sides, offset)?;
        self.trial
            .not_after(Clause::ApplyNotBefore, around.from, interval.from, offset)?;
        self.trial
            .not_after(Clause::ApplyNotAfter, interval.to, around.to, offset)?;
        let goal = Goal {
            formula: condition,
            interval,
        };
        self.check(shown, goal, view)?;
        Ok(Judgement {
            formula: Rc::clone(outcome),
            interval,
        })
    }

    /// 27: the body of a for-all with the term put in.
    fn instance(
        &mut self,
        term: Term,
        from: &Inference,
        view: View,
        offset: u64,
    ) -> Result<Judgement, Answer> {
        let inferred = self.infer(from, view)?;
        let for_all = inferred.formula.for_all();
        let (sort, body) = self.trial.found(Clause::InstanceForAll, for_all, offset)?;
        self.trial
            .fits(Clause::InstanceSort, sort == sort_of(term), offset)?;
        Ok(inferred.with(&instance(body, term)))
    }

    /// 22: both sides of a conjunction.
    fn pair(
        &mut self,
        first: &Step,
        second: &Step,
        goal: Goal,
        view: View,
        offset: u64,
    ) -> Result<(), Answer> {
        let sides = goal.formula.conjunction();
        let (left, right) = self.trial.found(Clause::PairGoal, sides, offset)?;
        self.check(first, goal.with(left), view)?;
        self.check(second, goal.with(right), view)
    }

    /// 28: a formula at an interval, shown on that interval; the view's interval stays.
    fn at_in(&mut self, inside: &Step, goal: Goal, view: View, offset: u64) -> Result<(), Answer> {
        let at = goal.formula.at();
        let (interval, formula) = self.trial.found(Clause::AtInGoal, at, offset)?;
        self.check(inside, Goal { formula, interval }, view)
    }

    /// 2A: what a principal says, shown in that principal's view on the goal's interval.
    fn says_in(&mut self, inside: &Step, goal: Goal, offset: u64) -> Result<(), Answer> {
        let says = goal.formula.says();
        let (principal, said) = self.trial.found(Clause::SaysInGoal, says, offset)?;
        let view = View {
            viewer: Some(Viewer {
                principal,
                interval: goal.interval,
            }),
            outside: self.assumptions.len(),
        };
        self.check(inside, goal.with(said), view)
    }

    /// 2C: a fact of the state at the press.
    fn state(&mut self, goal: Goal, offset: u64) -> Result<(), Answer> {
        let fact = self
            .trial
            .found(Clause::StateGoal, goal.formula.state(), offset)?;
        self.trial.fact(fact, offset)
    }

    /// 2D: the order of two times.
    fn order(&mut self, goal: Goal, offset: u64) -> Result<(), Answer> {
        let times = goal.formula.order();
        let (first, second) = self.trial.found(Clause::OrderGoal, times, offset)?;
        self.trial
            .not_after(Clause::OrderHolds, first, second, offset)
    }

    /// 2E and 2F: one side of an or.
    fn side(
        &mut self,
        side: Side,
        inside: &Step,
        goal: Goal,
        view: View,
        offset: u64,
    ) -> Result<(), Answer> {
        let clause = match side {
            Side::Left => Clause::LeftGoal,
            Side::Right => Clause::RightGoal,
        };
        let sides = goal.formula.disjunction();
        let (left, right) = self.trial.found(clause, sides, offset)?;
        let shown = match side {
            Side::Left => left,
            Side::Right => right,
        };
        self.check(inside, goal.with(shown), view)
    }
}

impl Judgement {
    /// Another formula on the same interval.
    pub fn with(&self, formula: &Rc<Formula>) -> Judgement {
        Judgement {
            formula: Rc::clone(formula),
            interval: self.interval,
        }
    }
}

impl<'g> Goal<'g> {
    /// Another formula on the same interval.
    fn with(self, formula: &'g Formula) -> Goal<'g> {
        Goal { formula, ..self }
    }
}
