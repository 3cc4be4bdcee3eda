//! Infers goals: from what is at hand, or from certificates written for them.

use super::clock::Span;
use super::enlarge::{Elimination, Plan};
use super::formula::Formula;
use super::goal::{Goal, Inferred, View};
use super::matching::ways;
use super::office::{Certificate, Office};
use super::ranks::all_above;
use super::step::Step;
use super::tags;
use crate::data::Time;

/// A formula at hand that leads to the wanted one.
struct Way {
    head: Inferred,
    plan: Plan,
    local: bool,
}

impl Office<'_> {
    /// A step that infers the goal's formula on a span that covers the goal's.
    pub fn inferred(&mut self, goal: &Goal) -> Option<Inferred> {
        let mut found = self.at_hand(goal);
        let full = self.policy.len() >= 32;
        if self.tired(goal) && !full {
            found.retain(|way| !way.plan.iter().any(asks));
        }
        if self.restless(goal) && !full && !self.random.one_in(4) {
            found.retain(|way| way.plan.iter().any(asks));
        }
        let eager = self.crowded() || self.tired(goal);
        let eager = eager || self.random.below(8) < self.habits.reuses;
        if found.is_empty() || !eager {
            return self.by_new_certificate(goal);
        }
        if found.iter().any(|way| way.local) && self.random.below(4) < 3 {
            found.retain(|way| way.local);
        }
        let choice = self.random.below(found.len() as u64) as usize;
        let way = found.swap_remove(choice);
        self.followed(way.head, &way.plan, goal)
    }

    /// All ways to the goal from assumptions and certificates at hand.
    fn at_hand(&mut self, goal: &Goal) -> Vec<Way> {
        let mut found = Vec::new();
        let above = all_above(&self.pairs, goal.view.principal);
        let count = self.scope.len();
        for (position, assumption) in self.scope.iter().enumerate() {
            let (span, claimed_by) = (assumption.span, assumption.claimed_by);
            let usable = |name| self.usable(&above, name, span, goal.view);
            let claim_fits = claimed_by.is_none_or(usable);
            if claim_fits && !assumption.hidden && self.clock.covers(span, goal.span) {
                let step = Step::named(tags::LOCAL, count - 1 - position);
                let plans = ways(self.random, &self.clock, &assumption.formula, &goal.formula);
                note(&mut found, plans, step, span, true, goal.levels);
            }
        }
        for (index, certificate) in self.policy.iter().enumerate() {
            let span = certificate.span;
            let usable = self.usable(&above, certificate.principal, span, goal.view);
            if usable && self.clock.covers(span, goal.span) {
                let step = Step::certificate(index);
                let plans = ways(
                    self.random,
                    &self.clock,
                    &certificate.formula,
                    &goal.formula,
                );
                note(&mut found, plans, step, span, false, goal.levels);
            }
        }
        found
    }

    /// Whether a view lets words of a principal on a span be used, as the clock stands and where these are as strong
    /// as the view's principal.
    fn usable(&self, strong: &[u16], principal: u16, span: Span, view: View) -> bool {
        strong.contains(&principal) && self.clock.covers(span, view.span)
    }

    /// The goal inferred from a certificate written for it.
    fn by_new_certificate(&mut self, goal: &Goal) -> Option<Inferred> {
        let moves = if self.tired(goal) {
            0
        } else {
            self.random.below(self.habits.moves + 1)
        };
        let asking = self.restless(goal) && !self.random.one_in(6);
        let (grown, plan) = self.grown(goal.formula.clone(), goal.levels, moves, asking);
        let (formula, plan) = self.without_ctime(grown, plan);
        let both = self.clock.around_both(goal.span, goal.view.span);
        let speaker = self.speaker(goal.view.principal);
        let head = self.certified(speaker, both, formula)?;
        self.followed(head, &plan, goal)
    }

    /// A new certificate of a principal around a span, if there is room for it.
    pub fn certified(
        &mut self,
        principal: u16,
        around: Span,
        formula: Formula,
    ) -> Option<Inferred> {
        if self.policy.len() >= 32 || !formula.fits(0) {
            return None;
        }
        let span = self.certified_around(around);
        let step = Step::certificate(self.policy.len());
        self.policy.push(Certificate {
            principal,
            span,
            formula,
        });
        Some(Inferred { step, span })
    }

    /// A span for a certificate that covers another.
    fn certified_around(&mut self, span: Span) -> Span {
        if self.random.below(8) < self.habits.always {
            return Span::ALWAYS;
        }
        let (clock, random) = (&self.clock, &mut *self.random);
        Span {
            from: clock.fixed_between(random, Time::MinusInfinity, span.from),
            to: clock.fixed_between(random, span.to, Time::PlusInfinity),
        }
    }

    /// The goal inferred from a head by a plan.
    fn followed(&mut self, head: Inferred, plan: &[Elimination], goal: &Goal) -> Option<Inferred> {
        if goal.levels == 0 {
            return None;
        }
        let Some((last, rest)) = plan.split_first() else {
            return Some(head);
        };
        self.habits.steps -= 1;
        if let Elimination::Apply(asked) = last {
            return self.applied(head, rest, asked, goal);
        }
        let inner = self.followed(head, rest, &goal.under(&goal.formula, goal.span))?;
        let step = match last {
            Elimination::First => Step::over(tags::FIRST, vec![inner.step]),
            Elimination::Second => Step::over(tags::SECOND, vec![inner.step]),
            Elimination::Instance(term) => Step::instance(*term, inner.step),
            Elimination::Apply(_) => return None,
        };
        Some(Inferred {
            step,
            span: inner.span,
        })
    }

    /// A span that lies in one and covers another; the latter itself, where the policy has little room.
    fn between(&mut self, outer: Span, inner: Span) -> Span {
        if self.crowded() {
            return inner;
        }
        let (clock, random) = (&self.clock, &mut *self.random);
        Span {
            from: clock.between(random, outer.from, inner.from),
            to: clock.between(random, inner.to, outer.to),
        }
    }

    /// The goal inferred from a head by a plan, an implication and what it asks for.
    fn applied(
        &mut self,
        head: Inferred,
        rest: &[Elimination],
        asked: &Formula,
        goal: &Goal,
    ) -> Option<Inferred> {
        let span = self.between(head.span, goal.span);
        let first = self.followed(head, rest, &goal.under(&goal.formula, span))?;
        let second = self.checked(&goal.under(asked, span))?;
        Some(Inferred {
            step: Step::apply(first.step, second, span.from, span.to),
            span,
        })
    }
}

/// Whether an elimination asks for something to be shown.
fn asks(elimination: &Elimination) -> bool {
    matches!(elimination, Elimination::Apply(_))
}

/// Adds the plans that so many levels have room for.
fn note(
    found: &mut Vec<Way>,
    plans: Vec<Plan>,
    step: Step,
    span: Span,
    local: bool,
    levels: usize,
) {
    for plan in plans {
        let deepest = plan.iter().rposition(asks).map_or(0, |place| place + 4);
        if plan.len() < levels && deepest <= levels {
            let head = Inferred {
                step: step.clone(),
                span,
            };
            found.push(Way { head, plan, local });
        }
    }
}
