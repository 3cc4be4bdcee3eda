//! Checks goals by cases, and from falsity.

use super::clock::Span;
use super::formula::Formula;
use super::goal::Goal;
use super::office::{Assumption, Office};
use super::step::Step;
use super::tags;

impl Office<'_> {
    /// The goal checked once with each side of an or, assumed where the or is inferred.
    pub fn by_cases(&mut self, goal: &Goal) -> Option<Step> {
        let helped = self.helped(goal, false);
        let sides = [(); 2].map(|_| self.side(&helped));
        let [left, right] = sides.clone();
        let whole = Formula::either(left, right);
        let span = self.clock.around(self.random, helped.span);
        let first = self.inferred(&goal.under(&whole, span))?;
        let mut parts = vec![first.step];
        for formula in sides {
            let assumption = Assumption {
                formula,
                span: first.span,
                claimed_by: None,
                hidden: false,
            };
            parts.push(self.with_assumption(goal, assumption)?);
        }
        Some(Step::over(tags::CASES, parts))
    }

    /// A side of an or: a formula that helps with a goal, or falsity.
    fn side(&mut self, helped: &Goal) -> Formula {
        if self.random.one_in(5) {
            return Formula::falsity();
        }
        self.helpful(&helped.formula, helped.levels - 2)
    }

    /// The goal checked from falsity: from an assumption of it, or else inferred anywhere.
    pub fn by_falsity(&mut self, goal: &Goal) -> Option<Step> {
        let span = match self.falsity_assumed() {
            Some(span) => span,
            None => self.some_span(),
        };
        let falsity = self.inferred(&goal.under(&Formula::falsity(), span))?;
        Some(Step::over(tags::BY_FALSITY, vec![falsity.step]))
    }

    /// Where the latest assumption of falsity that is not hidden holds, if there is one.
    pub fn falsity_assumed(&self) -> Option<Span> {
        let mut visible = self.scope.iter().rev().filter(|one| !one.hidden);
        let assumption = visible.find(|one| one.formula.tag == tags::FALSITY)?;
        Some(assumption.span)
    }
}
