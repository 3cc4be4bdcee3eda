//! Larger formulas from which a wanted one is inferred by eliminations.

use super::formula::Formula;
use super::office::Office;
use super::word::{sort_of, Sort, Word};
use crate::data::{Term, Time};

/// One elimination on the way from a formula to the wanted one.
#[derive(Clone, Debug)]
pub enum Elimination {
    First,
    Second,
    /// Shows the formula to an implication that wants it.
    Apply(Formula),
    Instance(Term),
}

/// Eliminations, the outermost (the last to be done) first.
pub type Plan = Vec<Elimination>;

impl Office<'_> {
    /// A larger formula and the eliminations back to the wanted one, at most so many, in a proof of so many levels;
    /// one more, if it is to ask for something first.
    pub fn grown(
        &mut self,
        wanted: Formula,
        levels: usize,
        moves: u64,
        asking: bool,
    ) -> (Formula, Plan) {
        let mut plan = Plan::new();
        let mut formula = wanted;
        for number in u64::from(!asking)..=moves {
            let (next, elimination) = if number == 0 {
                self.asking(&formula)
            } else {
                self.one_move(&formula)
            };
            if plan.len() + 5 > levels || !next.fits(2) {
                break;
            }
            formula = next;
            plan.push(elimination);
        }
        (formula, plan)
    }

    /// A formula one elimination larger.
    fn one_move(&mut self, formula: &Formula) -> (Formula, Elimination) {
        match self.random.below(10) {
            0 => {
                let other = self.other_side();
                (Formula::both(formula.clone(), other), Elimination::First)
            }
            1 => {
                let other = self.other_side();
                (Formula::both(other, formula.clone()), Elimination::Second)
            }
            2..=5 => self.asking(formula),
            _ => self.generalized(formula),
        }
    }

    /// An implication with the formula as its end.
    fn asking(&mut self, formula: &Formula) -> (Formula, Elimination) {
        let levels = 1 + self.random.below(self.habits.breadth) as usize;
        let asked = self.invented(levels);
        (
            Formula::implies(asked.clone(), formula.clone()),
            Elimination::Apply(asked),
        )
    }

    /// The side of a conjunction or of an or that is not used.
    pub fn other_side(&mut self) -> Formula {
        let levels = 1 + self.random.below(4) as usize;
        if self.random.one_in(3) {
            self.invented(levels)
        } else {
            self.beside(levels)
        }
    }

    /// A for-all with the formula as an instance: some or all places of one of its terms, seldom of none.
    fn generalized(&mut self, formula: &Formula) -> (Formula, Elimination) {
        let words = formula.all_words();
        let chosen = if words.is_empty() || self.random.one_in(10) {
            self.word()
        } else {
            *self.random.pick(&words)
        };
        let Word::Fixed(term) = chosen else {
            return self.generalized_at(formula, Term::Name(1));
        };
        self.generalized_at(formula, term)
    }

    /// A for-all with the formula as its instance at the term.
    fn generalized_at(&mut self, formula: &Formula, term: Term) -> (Formula, Elimination) {
        let all = self.random.below(3) < 2;
        let random = &mut *self.random;
        let whole = formula.abstracted(term, sort_of(term), &mut || all || random.one_in(2));
        (whole, Elimination::Instance(term))
    }

    /// The formula and its plan made fit for a certificate: every ctime comes in by an instance.
    pub fn without_ctime(&mut self, formula: Formula, mut plan: Plan) -> (Formula, Plan) {
        let ctime = Term::When(Time::Ctime);
        let mut whole = formula;
        let count = |formula: &Formula| {
            let words = formula.all_words();
            words.iter().filter(|word| **word == Word::CTIME).count()
        };
        if count(&whole) > 1 && self.random.one_in(3) {
            let random = &mut *self.random;
            whole = whole.abstracted(ctime, Sort::Time, &mut || random.one_in(2));
            plan.push(Elimination::Instance(ctime));
        }
        if count(&whole) > 0 {
            whole = whole.abstracted(ctime, Sort::Time, &mut || true);
            plan.push(Elimination::Instance(ctime));
        }
        (whole, plan)
    }
}
