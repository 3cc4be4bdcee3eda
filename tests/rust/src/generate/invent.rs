//! Formulas out of nothing: ones that the office will show, and ones that only stand beside.

use super::constant::some_constant;
use super::formula::Formula;
use super::office::Office;
use super::word::{Sort, Word};
use crate::data::Time;

impl Office<'_> {
    /// A closed formula for the office to show; often an earlier one again.
    pub fn invented(&mut self, levels: usize) -> Formula {
        let again = self.crowded() || self.random.below(8) < self.habits.repeats;
        if !self.goals.is_empty() && again {
            return self.random.pick(&self.goals).clone();
        }
        let formula = self.fresh(levels);
        if self.goals.len() < 12 && self.random.below(3) < 2 {
            self.goals.push(formula.clone());
        }
        formula
    }

    /// A closed formula, new.
    fn fresh(&mut self, levels: usize) -> Formula {
        let choice = self.random.below(16);
        if choice < self.habits.facts {
            return self.some_fact();
        }
        if levels == 0 {
            return self.fresh_leaf();
        }
        if choice < self.habits.facts + self.habits.pairs {
            return Formula::both(self.invented(levels - 1), self.invented(levels - 1));
        }
        if choice < self.habits.facts + self.habits.pairs + self.habits.views {
            return self.said_at(levels - 1);
        }
        match self.random.below(11) {
            0..=2 => Formula::says(Word::name(self.name()), self.invented(levels - 1)),
            3..=4 => {
                let (from, to) = (self.time(), self.time());
                Formula::at(Word::when(from), Word::when(to), self.invented(levels - 1))
            }
            5 if self.random.one_in(3) => self.beside(levels + 1),
            5 => self.about_all(),
            6..=7 => self.shown_by_scope(),
            8 => self.some_either(levels - 1),
            _ => self.fresh_leaf(),
        }
    }

    /// An or of two formulas, one of them made for the office to show.
    fn some_either(&mut self, levels: usize) -> Formula {
        let mut sides = [self.invented(levels), self.other_side()];
        if self.random.one_in(2) {
            sides.reverse();
        }
        let [left, right] = sides;
        Formula::either(left, right)
    }

    /// What somebody says at some time, mostly about another time.
    fn said_at(&mut self, levels: usize) -> Formula {
        let (from, to) = (self.time(), self.time());
        let mut said = self.invented(levels);
        if !self.random.one_in(4) {
            let (since, until) = (self.time(), self.time());
            said = Formula::at(Word::when(since), Word::when(until), said);
        }
        let says = Formula::says(Word::name(self.name()), said);
        Formula::at(Word::when(from), Word::when(to), says)
    }

    /// A closed formula with two or three binders around a formula about their variables.
    fn about_all(&mut self) -> Formula {
        let count = 2 + self.random.below(2);
        let mut around = Vec::new();
        for _ in 0..count {
            around.push(*self.random.pick(&[Sort::Name, Sort::Name, Sort::Time]));
        }
        let mut formula = self.open(2, &mut around);
        while let Some(sort) = around.pop() {
            formula = Formula::for_all(sort, formula);
        }
        formula
    }

    /// A closed formula of one level.
    fn fresh_leaf(&mut self) -> Formula {
        match self.random.below(10) {
            0 => some_constant(self.random, 3),
            1..=2 => self.some_order(),
            3..=4 => self.some_fact(),
            _ => {
                let words = self.arguments();
                Formula::atom(self.predicate(), words)
            }
        }
    }

    /// Arguments of an atom or fact, none to four.
    fn arguments(&mut self) -> Vec<Word> {
        let count = self.random.below(5);
        (0..count).map(|_| self.word()).collect()
    }

    /// A state fact.
    fn some_fact(&mut self) -> Formula {
        let words = self.arguments();
        Formula::fact(self.predicate(), words)
    }

    /// An order, mostly one that holds at the press.
    fn some_order(&mut self) -> Formula {
        let (mut left, mut right) = (self.time(), self.time());
        if !self.clock.at_most(left, right) && !self.random.one_in(8) {
            (left, right) = (right, left);
        }
        Formula::order(Word::when(left), Word::when(right))
    }

    /// A formula that an assumption at hand can show.
    fn shown_by_scope(&mut self) -> Formula {
        if self.scope.is_empty() {
            return self.fresh_leaf();
        }
        let assumption = self.random.pick(&self.scope).clone();
        let (span, hidden) = (assumption.span, assumption.hidden);
        let shown = match assumption.claimed_by {
            Some(name) => Formula::says(Word::name(name), assumption.formula),
            None => assumption.formula,
        };
        if hidden || self.random.one_in(2) {
            return Formula::at_span(span, shown);
        }
        shown
    }

    /// A closed formula of any kind, at most so many levels deep.
    pub fn beside(&mut self, levels: usize) -> Formula {
        self.open(levels.max(1), &mut Vec::new())
    }

    /// A formula with variables of the sorts around it, the last being the innermost.
    fn open(&mut self, levels: usize, around: &mut Vec<Sort>) -> Formula {
        if levels <= 1 {
            return self.open_leaf(around);
        }
        match self.random.below(10) {
            0 => Formula::both(self.open(levels - 1, around), self.open(levels - 1, around)),
            1 => Formula::implies(self.open(levels - 1, around), self.open(levels - 1, around)),
            2..=3 if around.len() < 8 => {
                let sort = *self.random.pick(&[Sort::Name, Sort::Time]);
                around.push(sort);
                let body = self.open(levels - 1, around);
                around.pop();
                Formula::for_all(sort, body)
            }
            4 => {
                let principal = self.open_word(around, Some(Sort::Name));
                Formula::says(principal, self.open(levels - 1, around))
            }
            5 => {
                let from = self.open_word(around, Some(Sort::Time));
                let to = self.open_word(around, Some(Sort::Time));
                Formula::at(from, to, self.open(levels - 1, around))
            }
            6 => Formula::either(self.open(levels - 1, around), self.open(levels - 1, around)),
            _ => self.open_leaf(around),
        }
    }

    /// A formula of one level with variables of the sorts around it.
    fn open_leaf(&mut self, around: &[Sort]) -> Formula {
        let count = self.random.below(5);
        match self.random.below(6) {
            0 => some_constant(self.random, 2),
            1 => {
                let left = self.open_word(around, Some(Sort::Time));
                Formula::order(left, self.open_word(around, Some(Sort::Time)))
            }
            2..=3 => {
                let words = (0..count).map(|_| self.open_word(around, None)).collect();
                Formula::fact(self.predicate(), words)
            }
            _ => {
                let words = (0..count).map(|_| self.open_word(around, None)).collect();
                Formula::atom(self.predicate(), words)
            }
        }
    }

    /// A word of a sort, if one is asked for; often a variable of those around.
    fn open_word(&mut self, around: &[Sort], sort: Option<Sort>) -> Word {
        if !around.is_empty() && self.random.below(4) < 3 {
            let index = self.random.below(around.len() as u64) as usize;
            let bound = around[around.len() - 1 - index];
            if sort.is_none_or(|wanted| wanted == bound) {
                return Word::Bound(index as u8);
            }
        }
        match sort {
            Some(Sort::Name) => Word::name(self.name()),
            Some(Sort::Time) => Word::when(self.clock.any(self.random, 0)),
            None => self.word(),
        }
    }

    /// The formula with the press's moment for every ctime.
    pub fn at_the_press(&self, formula: &Formula) -> Formula {
        let press = Word::when(Time::Moment(self.clock.press()));
        formula.changed(&mut |word, _| if word == Word::CTIME { press } else { word })
    }
}
