//! Assumptions: the step that uses one, and the steps that go on from what they infer, with an assumption, with one in
//! each of two cases, or with nothing left to show.

use super::clauses::{Clause, Watch};
use super::formulas::Formula;
use super::judging::{Goal, Judgement, Walk};
use super::reading::Reading;
use super::steps::{Inference, Step};
use super::viewing::{View, Words};
use crate::data::Answer;
use std::rc::Rc;

/// A judgement that was assumed: a plain one, or somebody's claim.
pub struct Assumption {
    judgement: Judgement,
    claimed_by: Option<u16>,
}

impl Assumption {
    /// An assumption that is nobody's claim.
    fn plain(judgement: Judgement) -> Assumption {
        Assumption {
            judgement,
            claimed_by: None,
        }
    }
}

impl<R: Reading, W: Watch> Walk<'_, R, W> {
    /// 20: the assumption with this index, if it can be used in the view.
    pub fn assumption(
        &mut self,
        index: usize,
        view: View,
        offset: u64,
    ) -> Result<Judgement, Answer> {
        let mut numbered = self.assumptions.iter().enumerate().rev();
        let (position, assumption) = numbered.nth(index).ok_or(Answer::refused(2, 0))?;
        match assumption.claimed_by {
            Some(principal) => {
                let interval = assumption.judgement.interval;
                let (trial, words) = (&mut self.trial, Words::OF_A_CLAIM);
                view.usable(trial, words, principal, interval, offset)?;
            }
            None => {
                let from_inside = position >= view.outside;
                self.trial
                    .fits(Clause::PlainFromInside, from_inside, offset)?;
            }
        }
        Ok(assumption.judgement.clone())
    }

    /// 29: the goal, with a formula at an interval taken for a plain assumption.
    pub fn at_out(
        &mut self,
        inference: &Inference,
        rest: &Step,
        goal: Goal,
        view: View,
        offset: u64,
    ) -> Result<(), Answer> {
        let inferred = self.infer(inference, view)?;
        let at = inferred.formula.at();
        let (interval, formula) = self.trial.found(Clause::AtOutInferred, at, offset)?;
        let formula = Rc::clone(formula);
        let plain = Assumption::plain(Judgement { formula, interval });
        self.check_assuming(plain, rest, goal, view)
    }

    /// 2B: the goal, with what a principal says taken for that principal's claim.
    pub fn says_out(
        &mut self,
        inference: &Inference,
        rest: &Step,
        goal: Goal,
        view: View,
        offset: u64,
    ) -> Result<(), Answer> {
        let inferred = self.infer(inference, view)?;
        let says = inferred.formula.says();
        let (principal, said) = self.trial.found(Clause::SaysOutInferred, says, offset)?;
        let claim = Assumption {
            judgement: inferred.with(said),
            claimed_by: Some(principal),
        };
        self.check_assuming(claim, rest, goal, view)
    }

    /// 30: the goal, once for each side of an or, with that side taken for a plain assumption where the or holds.
    pub fn cases(
        &mut self,
        inference: &Inference,
        branches: [&Step; 2],
        goal: Goal,
        view: View,
        offset: u64,
    ) -> Result<(), Answer> {
        let inferred = self.infer(inference, view)?;
        let sides = inferred.formula.disjunction();
        let (left, right) = self.trial.found(Clause::CasesInferred, sides, offset)?;
        for (side, branch) in [left, right].into_iter().zip(branches) {
            let plain = Assumption::plain(inferred.with(side));
            self.check_assuming(plain, branch, goal, view)?;
        }
        Ok(())
    }

    /// 31: any goal on any interval, as falsity was inferred.
    pub fn by_falsity(
        &mut self,
        inference: &Inference,
        view: View,
        offset: u64,
    ) -> Result<(), Answer> {
        let inferred = self.infer(inference, view)?;
        let falsity = matches!(*inferred.formula, Formula::Falsity);
        self.trial.fits(Clause::FalsityInferred, falsity, offset)
    }

    /// Goes on where a step shows a goal with one more assumption.
    fn check_assuming(
        &mut self,
        assumption: Assumption,
        rest: &Step,
        goal: Goal,
        view: View,
    ) -> Result<(), Answer> {
        self.assumptions.push(assumption);
        self.check(rest, goal, view)?;
        self.assumptions.pop();
        Ok(())
    }
}
