//! The reader of a certificate's formula.

use super::bytes::Bytes;
use super::clauses::Watch;
use super::formulas::{Formula, Saying, Slot};
use super::terms::{read_predicate, read_tagged, sort_of, Sort};
use crate::data::{Term, Time};
use std::rc::Rc;

/// How many formulas can stand inside of each other, the innermost one included.
const MOST_LEVELS: usize = 16;

/// How many binders can be around a place.
const MOST_BINDERS: usize = 8;

/// Reads one formula and knows the binders around its place.
struct FormulaReader<'a, W> {
    bytes: Bytes<'a>,
    binders: Vec<Sort>,
    watch: &'a mut W,
}

/// The formula that fills these bytes, if one does that a certificate may hold.
pub fn read_formula<W: Watch>(part: &[u8], watch: &mut W) -> Option<Rc<Formula>> {
    let mut reader = FormulaReader {
        bytes: Bytes::of(part),
        binders: Vec::new(),
        watch,
    };
    let formula = reader.formula(MOST_LEVELS)?;
    reader.bytes.ended().then_some(formula)
}

impl<W: Watch> FormulaReader<'_, W> {
    /// The formula that comes next, if it is one of at most this many levels.
    fn formula(&mut self, levels: usize) -> Option<Rc<Formula>> {
        let below = levels.checked_sub(1)?;
        let formula = match self.bytes.byte()? {
            0x10 => Formula::Top,
            0x11 => Formula::And(self.formula(below)?, self.formula(below)?),
            0x12 => Formula::Implies(self.formula(below)?, self.formula(below)?),
            0x13 => self.for_all(Sort::Name, below)?,
            0x14 => self.for_all(Sort::Time, below)?,
            0x15 => Formula::Says(self.slot_of(Sort::Name)?, self.formula(below)?),
            0x16 => {
                let (from, to) = (self.slot_of(Sort::Time)?, self.slot_of(Sort::Time)?);
                Formula::At(from, to, self.formula(below)?)
            }
            0x17 => Formula::Atom(self.saying()?),
            0x18 => Formula::State(self.saying()?),
            0x19 => Formula::Order(self.slot_of(Sort::Time)?, self.slot_of(Sort::Time)?),
            0x1a => Formula::Or(self.formula(below)?, self.formula(below)?),
            0x1b => Formula::Falsity,
            _ => return None,
        };
        self.watch.formula(formula.tag());
        Some(Rc::new(formula))
    }

    /// The for-all over this sort whose body comes next, if there is room for one more binder.
    fn for_all(&mut self, sort: Sort, below: usize) -> Option<Formula> {
        if self.binders.len() == MOST_BINDERS {
            return None;
        }
        self.binders.push(sort);
        let body = self.formula(below)?;
        self.binders.pop();
        Some(Formula::ForAll(sort, body))
    }

    /// The predicate and slots that come next, if they do.
    fn saying(&mut self) -> Option<Saying> {
        let binders = &self.binders;
        let read = |bytes: &mut Bytes| read_slot(bytes, binders).map(|(slot, _)| slot);
        let (predicate, slots) = read_predicate(&mut self.bytes, read)?;
        Some(Saying { predicate, slots })
    }

    /// The slot that comes next, if it is of this sort.
    fn slot_of(&mut self, wanted: Sort) -> Option<Slot> {
        let (slot, sort) = read_slot(&mut self.bytes, &self.binders)?;
        (sort == wanted).then_some(slot)
    }
}

/// The slot that comes next and its sort, if it is neither ctime nor a variable without a binder.
fn read_slot(bytes: &mut Bytes, binders: &[Sort]) -> Option<(Slot, Sort)> {
    match bytes.byte()? {
        0x05 => {
            let index = bytes.byte()?;
            let sort = binders.iter().rev().nth(usize::from(index))?;
            Some((Slot::Variable(index), *sort))
        }
        tag => {
            let term = read_tagged(tag, bytes)?;
            (term != Term::When(Time::Ctime)).then_some((Slot::Term(term), sort_of(term)))
        }
    }
}
