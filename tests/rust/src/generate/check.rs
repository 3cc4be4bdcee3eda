//! Checks goals: chooses a rule at random.

use super::formula::Formula;
use super::goal::{pair, Goal};
use super::office::Office;
use super::step::Step;
use super::tags;

impl Office<'_> {
    /// A step that checks the goal, perhaps one that checked it elsewhere.
    pub fn checked(&mut self, goal: &Goal) -> Option<Step> {
        if self.crowded() {
            if let Some(step) = self.checked_before(goal) {
                return Some(step);
            }
        }
        let step = self.checked_anew(goal)?;
        if self.shown.len() < 100 && step.closed(0) {
            self.shown.push((goal.clone(), step.clone()));
        }
        Some(step)
    }

    /// A step that has checked the goal before and can stand here too.
    fn checked_before(&mut self, goal: &Goal) -> Option<Step> {
        let fits = |(before, step): &&(Goal, Step)| {
            before.formula == goal.formula
                && before.view == goal.view
                && before.span == goal.span
                && step.levels() <= goal.levels
                && step.count_of(tags::STATE) <= self.facts_left
        };
        let (_, step) = self.shown.iter().find(fits)?;
        let step = step.clone();
        self.facts_left -= step.count_of(tags::STATE);
        self.habits.steps -= step.count() as i64;
        Some(step)
    }

    /// A new step that checks the goal.
    fn checked_anew(&mut self, goal: &Goal) -> Option<Step> {
        self.habits.steps -= 1;
        self.clock.waver(self.random);
        if goal.levels == 0 {
            return None;
        }
        if !self.tired(goal) && goal.levels >= 7 && self.random.one_in(self.habits.wraps) {
            return self.wrapped(goal);
        }
        if goal.levels >= 4 && self.falsity_assumed().is_some() && !self.random.one_in(4) {
            return self.by_falsity(goal);
        }
        if self.random.below(7) > 0 {
            if let Some(step) = self.by_its_rule(goal) {
                return step;
            }
        }
        let spelled = self.respelled(&goal.formula);
        self.inferred(&goal.with(spelled)).map(|found| found.step)
    }

    /// Whether the office wants to come to an end at this goal.
    pub fn tired(&self, goal: &Goal) -> bool {
        self.habits.steps <= 0 || goal.levels <= 4
    }

    /// Whether the policy leaves little room for certificates.
    pub fn crowded(&self) -> bool {
        self.policy.len() > 18
    }

    /// Whether the office has far more steps to spend than this goal needs.
    pub fn restless(&self, goal: &Goal) -> bool {
        self.habits.steps > 15 && goal.levels > 6
    }

    /// The goal checked by the rule for its kind, if it has one that can be used here; none inside if that failed.
    fn by_its_rule(&mut self, goal: &Goal) -> Option<Option<Step>> {
        let parts = &goal.formula.parts;
        match goal.formula.tag {
            tags::TOP => Some(Some(Step::leaf(tags::TRIVIAL))),
            tags::FACT => self.by_state(),
            tags::ORDER => self.by_order(&goal.formula),
            _ if goal.levels < 4 => None,
            tags::BOTH => {
                let first = self.checked(&goal.under(&parts[0], goal.span));
                let second = self.checked(&goal.under(&parts[1], goal.span));
                Some(pair(tags::PAIR, first, second))
            }
            tags::EITHER => {
                let side = self.random.below(2) as usize;
                let inside = self.checked(&goal.under(&parts[side], goal.span));
                let tag = [tags::LEFT, tags::RIGHT][side];
                Some(inside.map(|step| Step::over(tag, vec![step])))
            }
            tags::AT => {
                let span = goal.formula.span()?;
                let inside = self.checked(&goal.under(&parts[0], span));
                Some(inside.map(|step| Step::over(tags::AT_IN, vec![step])))
            }
            tags::SAYS => {
                let inside = goal.inside_of_says()?;
                Some(self.says_in(&inside))
            }
            _ => None,
        }
    }

    /// A state fact checked, while the proof may have more of them.
    fn by_state(&mut self) -> Option<Option<Step>> {
        self.facts_left = self.facts_left.checked_sub(1)?;
        Some(Some(Step::leaf(tags::STATE)))
    }

    /// An order checked, if it holds at the press.
    fn by_order(&mut self, formula: &Formula) -> Option<Option<Step>> {
        let (left, right) = (formula.words[0].time()?, formula.words[1].time()?);
        let holds = self.clock.at_most(left, right);
        holds.then(|| Some(Step::leaf(tags::COMPARE)))
    }

    /// The goal checked within its view, where plain assumptions are hidden.
    pub fn says_in(&mut self, goal: &Goal) -> Option<Step> {
        let outside = self.scope.clone();
        for assumption in self.scope.iter_mut() {
            assumption.hidden |= assumption.claimed_by.is_none();
        }
        let inside = self.checked(goal);
        self.scope = outside;
        Some(Step::over(tags::SAYS_IN, vec![inside?]))
    }
}
