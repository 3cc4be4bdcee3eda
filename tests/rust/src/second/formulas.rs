//! Formulas as trees: what they are made of, and a term put in for a variable.

use super::terms::Sort;
use super::times::Interval;
use crate::data::{Fact, Request, Term, Time};
use std::rc::Rc;

/// A term, or a variable by the number of binders between it and its own.
#[derive(Clone, Copy, Debug, PartialEq, Eq)]
pub enum Slot {
    Term(Term),
    Variable(u8),
}

/// A predicate and what it is said of.
#[derive(Clone, Debug, PartialEq, Eq)]
pub struct Saying {
    pub predicate: u16,
    pub slots: Vec<Slot>,
}

/// A formula.
#[derive(Clone, Debug, PartialEq, Eq)]
pub enum Formula {
    Top,
    And(Rc<Formula>, Rc<Formula>),
    Implies(Rc<Formula>, Rc<Formula>),
    ForAll(Sort, Rc<Formula>),
    Says(Slot, Rc<Formula>),
    At(Slot, Slot, Rc<Formula>),
    Atom(Saying),
    State(Saying),
    Order(Slot, Slot),
    Or(Rc<Formula>, Rc<Formula>),
    Falsity,
}

impl Slot {
    /// The name here, if there is one.
    fn name(self) -> Option<u16> {
        match self {
            Slot::Term(Term::Name(name)) => Some(name),
            _ => None,
        }
    }

    /// The time here, if there is one.
    fn time(self) -> Option<Time> {
        match self {
            Slot::Term(Term::When(time)) => Some(time),
            _ => None,
        }
    }

    /// The term here, if there is one.
    fn term(self) -> Option<Term> {
        match self {
            Slot::Term(term) => Some(term),
            Slot::Variable(_) => None,
        }
    }

    /// The slot with a term put in for the variable that this many binders hide.
    fn with(self, term: Term, binders: u8) -> Slot {
        match self {
            Slot::Variable(index) if index == binders => Slot::Term(term),
            Slot::Variable(index) if index > binders => Slot::Variable(index - 1),
            other => other,
        }
    }
}

impl Saying {
    /// The saying with a term put in for the variable that this many binders hide.
    fn with(&self, term: Term, binders: u8) -> Saying {
        let slots = self.slots.iter().map(|slot| slot.with(term, binders));
        Saying {
            predicate: self.predicate,
            slots: slots.collect(),
        }
    }

    /// The fact that is spelled here, if no variable is left.
    fn fact(&self) -> Option<Fact> {
        let terms: Option<Vec<Term>> = self.slots.iter().map(|slot| slot.term()).collect();
        Some(Fact {
            predicate: self.predicate,
            terms: terms?,
        })
    }
}

impl Formula {
    /// What has to be shown for a request: that the administrator says its "may".
    pub fn wanted(request: Request) -> Formula {
        let names = [request.who, request.what, request.right];
        let may = Saying {
            predicate: 100,
            slots: names.map(|name| Slot::Term(Term::Name(name))).to_vec(),
        };
        Formula::Says(Slot::Term(Term::Name(1)), Rc::new(Formula::Atom(may)))
    }

    /// The tag that this formula begins with.
    pub fn tag(&self) -> u8 {
        match self {
            Formula::Top => 0x10,
            Formula::And(..) => 0x11,
            Formula::Implies(..) => 0x12,
            Formula::ForAll(Sort::Name, _) => 0x13,
            Formula::ForAll(Sort::Time, _) => 0x14,
            Formula::Says(..) => 0x15,
            Formula::At(..) => 0x16,
            Formula::Atom(_) => 0x17,
            Formula::State(_) => 0x18,
            Formula::Order(..) => 0x19,
            Formula::Or(..) => 0x1a,
            Formula::Falsity => 0x1b,
        }
    }

    /// Both sides, if this is a conjunction.
    pub fn conjunction(&self) -> Option<(&Rc<Formula>, &Rc<Formula>)> {
        match self {
            Formula::And(first, second) => Some((first, second)),
            _ => None,
        }
    }

    /// The condition and the outcome, if this is an implication.
    pub fn implication(&self) -> Option<(&Rc<Formula>, &Rc<Formula>)> {
        match self {
            Formula::Implies(condition, outcome) => Some((condition, outcome)),
            _ => None,
        }
    }

    /// The sort and the body, if this is a for-all.
    pub fn for_all(&self) -> Option<(Sort, &Rc<Formula>)> {
        match self {
            Formula::ForAll(sort, body) => Some((*sort, body)),
            _ => None,
        }
    }

    /// Who says what, if somebody named does.
    pub fn says(&self) -> Option<(u16, &Rc<Formula>)> {
        match self {
            Formula::Says(principal, said) => Some((principal.name()?, said)),
            _ => None,
        }
    }

    /// The interval and what is said to hold on it, if this is such a formula.
    pub fn at(&self) -> Option<(Interval, &Rc<Formula>)> {
        match self {
            Formula::At(from, to, held) => {
                let (from, to) = (from.time()?, to.time()?);
                Some((Interval { from, to }, held))
            }
            _ => None,
        }
    }

    /// The fact, if this is one of the state's.
    pub fn state(&self) -> Option<Fact> {
        match self {
            Formula::State(saying) => saying.fact(),
            _ => None,
        }
    }

    /// Both times, if this is their order.
    pub fn order(&self) -> Option<(Time, Time)> {
        match self {
            Formula::Order(first, second) => Some((first.time()?, second.time()?)),
            _ => None,
        }
    }

    /// Both sides, if this is an or.
    pub fn disjunction(&self) -> Option<(&Rc<Formula>, &Rc<Formula>)> {
        match self {
            Formula::Or(left, right) => Some((left, right)),
            _ => None,
        }
    }
}

/// The body of a for-all with a term put in for its variable.
pub fn instance(body: &Rc<Formula>, term: Term) -> Rc<Formula> {
    substitute(body, term, 0)
}

/// The formula with a term put in for the variable that this many binders hide.
fn substitute(formula: &Rc<Formula>, term: Term, binders: u8) -> Rc<Formula> {
    let inside = |part: &Rc<Formula>| substitute(part, term, binders);
    Rc::new(match &**formula {
        Formula::Top | Formula::Falsity => return Rc::clone(formula),
        Formula::And(first, second) => Formula::And(inside(first), inside(second)),
        Formula::Implies(condition, outcome) => {
            Formula::Implies(inside(condition), inside(outcome))
        }
        Formula::ForAll(sort, body) => Formula::ForAll(*sort, substitute(body, term, binders + 1)),
        Formula::Says(principal, said) => {
            Formula::Says(principal.with(term, binders), inside(said))
        }
        Formula::At(from, to, held) => Formula::At(
            from.with(term, binders),
            to.with(term, binders),
            inside(held),
        ),
        Formula::Atom(saying) => Formula::Atom(saying.with(term, binders)),
        Formula::State(saying) => Formula::State(saying.with(term, binders)),
        Formula::Order(first, second) => {
            Formula::Order(first.with(term, binders), second.with(term, binders))
        }
        Formula::Or(left, right) => Formula::Or(inside(left), inside(right)),
    })
}
