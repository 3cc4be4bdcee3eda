//! Checks goals with one more assumption.

use super::clock::Span;
use super::formula::Formula;
use super::goal::{pair, Goal};
use super::office::{Assumption, Office};
use super::step::Step;
use super::tags;
use super::word::Word;

impl Office<'_> {
    /// The goal checked with one more assumption, mostly one that can show it; seldom from falsity.
    pub fn wrapped(&mut self, goal: &Goal) -> Option<Step> {
        match self.random.below(12) {
            0..=3 => self.at_out(goal),
            4..=7 => self.says_out(goal),
            8 if !self.restless(goal) => self.by_falsity(goal),
            _ => self.by_cases(goal),
        }
    }

    /// A formula that can show the goal's, or seldom one that need not.
    pub fn helpful(&mut self, formula: &Formula, levels: usize) -> Formula {
        if self.random.one_in(5) {
            return self.invented(1);
        }
        let spelled = self.respelled(formula);
        let moves = self.random.below(3);
        self.grown(spelled, levels, moves, false).0
    }

    /// What an assumption is to help with: the goal or, mostly, what stands in it under `at`, there, or on a side of an
    /// or; for a claim, under `says` as well.
    pub fn helped(&mut self, goal: &Goal, claim: bool) -> Goal {
        let formula = &goal.formula;
        let inside = match formula.tag {
            tags::AT => formula
                .span()
                .map(|span| goal.under(&formula.parts[0], span)),
            tags::EITHER => Some(goal.under(self.random.pick(&formula.parts), goal.span)),
            tags::SAYS if claim => goal.inside_of_says(),
            _ => None,
        };
        match inside {
            Some(inside) if goal.levels > 4 && !self.random.one_in(5) => {
                self.helped(&inside, claim)
            }
            _ => goal.clone(),
        }
    }

    /// The goal checked with a plain assumption from an `at`.
    fn at_out(&mut self, goal: &Goal) -> Option<Step> {
        let helped = self.helped(goal, false);
        let formula = self.helpful(&helped.formula, helped.levels - 2);
        let span = self.clock.around(self.random, helped.span);
        let whole = Formula::at_span(span, formula.clone());
        let anywhere = self.some_span();
        let first = self.inferred(&goal.under(&whole, anywhere))?;
        let assumption = Assumption {
            formula,
            span,
            claimed_by: None,
            hidden: false,
        };
        let second = self.with_assumption(goal, assumption);
        pair(tags::AT_OUT, Some(first.step), second)
    }

    /// The goal checked with a claim from a `says`, of a principal whose words can be used where the goal asks for some.
    fn says_out(&mut self, goal: &Goal) -> Option<Step> {
        let helped = self.helped(goal, true);
        let name = self.speaker(helped.view.principal);
        let formula = self.helpful(&helped.formula, helped.levels - 2);
        let whole = Formula::says(Word::name(name), formula.clone());
        let span = self.claimed_on(&helped);
        let first = self.inferred(&goal.under(&whole, span))?;
        let assumption = Assumption {
            formula,
            span: first.span,
            claimed_by: Some(name),
            hidden: false,
        };
        let second = self.with_assumption(goal, assumption);
        pair(tags::SAYS_OUT, Some(first.step), second)
    }

    /// The span for a claim that helps with a goal: the goal's, and mostly that of its view as well.
    fn claimed_on(&mut self, helped: &Goal) -> Span {
        if self.random.one_in(4) {
            return helped.span;
        }
        self.clock.around_both(helped.span, helped.view.span)
    }

    /// The goal checked with one assumption more.
    pub fn with_assumption(&mut self, goal: &Goal, assumption: Assumption) -> Option<Step> {
        self.scope.push(assumption);
        let step = self.checked(&goal.under(&goal.formula, goal.span));
        self.scope.pop();
        step
    }
}
