//! An inferred judgement where a goal is to be checked.

use super::clauses::{Clause, Watch};
use super::formulas::{Formula, Saying, Slot};
use super::judging::{Goal, Judgement};
use super::reading::Reading;
use super::trying::Trial;
use crate::data::{Answer, Term};

/// Compares for the step at one offset.
struct Comparison<'t, 'a, R, W> {
    trial: &'t mut Trial<'a, R, W>,
    offset: u64,
}

/// Goes on where an inferred judgement serves for a goal: the same formula, and an interval around the goal's.
pub fn serve<R: Reading, W: Watch>(
    trial: &mut Trial<R, W>,
    inferred: &Judgement,
    goal: Goal,
    offset: u64,
) -> Result<(), Answer> {
    let mut comparison = Comparison { trial, offset };
    comparison.formulas(&inferred.formula, goal.formula)?;
    let (around, within) = (inferred.interval, goal.interval);
    trial.not_after(Clause::CoversBeginning, around.from, within.from, offset)?;
    trial.not_after(Clause::CoversEnd, within.to, around.to, offset)
}

impl<R: Reading, W: Watch> Comparison<'_, '_, R, W> {
    /// Goes on where two formulas are equal, looking from left to right.
    fn formulas(&mut self, left: &Formula, right: &Formula) -> Result<(), Answer> {
        let same_kind = left.tag() == right.tag();
        self.trial.fits(Clause::SameKind, same_kind, self.offset)?;
        match (left, right) {
            (Formula::And(first, second), Formula::And(third, fourth))
            | (Formula::Implies(first, second), Formula::Implies(third, fourth))
            | (Formula::Or(first, second), Formula::Or(third, fourth)) => {
                self.formulas(first, third)?;
                self.formulas(second, fourth)
            }
            (Formula::ForAll(_, body), Formula::ForAll(_, other)) => self.formulas(body, other),
            (Formula::Says(principal, said), Formula::Says(other, repeated)) => {
                self.slots(*principal, *other)?;
                self.formulas(said, repeated)
            }
            (Formula::At(from, to, held), Formula::At(since, until, kept)) => {
                self.slots(*from, *since)?;
                self.slots(*to, *until)?;
                self.formulas(held, kept)
            }
            (Formula::Atom(saying), Formula::Atom(other))
            | (Formula::State(saying), Formula::State(other)) => self.sayings(saying, other),
            (Formula::Order(first, second), Formula::Order(third, fourth)) => {
                self.slots(*first, *third)?;
                self.slots(*second, *fourth)
            }
            _ => Ok(()),
        }
    }

    /// Goes on where two sayings are equal.
    fn sayings(&mut self, left: &Saying, right: &Saying) -> Result<(), Answer> {
        let same_predicate = left.predicate == right.predicate;
        let same_count = left.slots.len() == right.slots.len();
        let offset = self.offset;
        self.trial
            .fits(Clause::SamePredicate, same_predicate, offset)?;
        self.trial.fits(Clause::SameCount, same_count, offset)?;
        for (slot, other) in left.slots.iter().zip(&right.slots) {
            self.slots(*slot, *other)?;
        }
        Ok(())
    }

    /// Goes on where two slots are equal, which two times are when neither is after the other.
    fn slots(&mut self, left: Slot, right: Slot) -> Result<(), Answer> {
        let offset = self.offset;
        let same_sort = matches!(
            (left, right),
            (Slot::Variable(_), Slot::Variable(_))
                | (Slot::Term(Term::Name(_)), Slot::Term(Term::Name(_)))
                | (Slot::Term(Term::When(_)), Slot::Term(Term::When(_)))
        );
        self.trial.fits(Clause::SameSort, same_sort, offset)?;
        match (left, right) {
            (Slot::Variable(index), Slot::Variable(other)) => {
                self.trial
                    .fits(Clause::SameVariable, index == other, offset)
            }
            (Slot::Term(Term::Name(name)), Slot::Term(Term::Name(other))) => {
                self.trial.fits(Clause::SameName, name == other, offset)
            }
            (Slot::Term(Term::When(time)), Slot::Term(Term::When(other))) => {
                self.trial
                    .not_after(Clause::TimeNotAfter, time, other, offset)?;
                self.trial
                    .not_after(Clause::TimeNotBefore, other, time, offset)
            }
            _ => Ok(()),
        }
    }
}
