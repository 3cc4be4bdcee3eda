//! Formulas as trees, their bytes and their sizes.

use super::clock::Span;
use super::tags;
use super::word::{number, Sort, Word};
use crate::data::Term;

/// A formula: its tag, its predicate if it has one, its words and its subformulas, in the order of the bytes.
#[derive(Clone, Debug, PartialEq, Eq)]
pub struct Formula {
    pub tag: u8,
    pub predicate: u16,
    pub words: Vec<Word>,
    pub parts: Vec<Formula>,
}

/// A formula without predicate.
fn plain(tag: u8, words: Vec<Word>, parts: Vec<Formula>) -> Formula {
    Formula {
        tag,
        predicate: 0,
        words,
        parts,
    }
}

/// Makers, one for each kind.
impl Formula {
    /// Top.
    pub fn top() -> Formula {
        plain(tags::TOP, vec![], vec![])
    }

    /// Left and right.
    pub fn both(left: Formula, right: Formula) -> Formula {
        plain(tags::BOTH, vec![], vec![left, right])
    }

    /// Left or right.
    pub fn either(left: Formula, right: Formula) -> Formula {
        plain(tags::EITHER, vec![], vec![left, right])
    }

    /// Falsity.
    pub fn falsity() -> Formula {
        plain(tags::FALSITY, vec![], vec![])
    }

    /// Left implies right.
    pub fn implies(left: Formula, right: Formula) -> Formula {
        plain(tags::IMPLIES, vec![], vec![left, right])
    }

    /// For all of a sort, the body.
    pub fn for_all(sort: Sort, body: Formula) -> Formula {
        let tag = match sort {
            Sort::Name => tags::ALL_NAMES,
            Sort::Time => tags::ALL_TIMES,
        };
        plain(tag, vec![], vec![body])
    }

    /// The principal says the body.
    pub fn says(principal: Word, body: Formula) -> Formula {
        plain(tags::SAYS, vec![principal], vec![body])
    }

    /// The body at an interval.
    pub fn at(from: Word, to: Word, body: Formula) -> Formula {
        plain(tags::AT, vec![from, to], vec![body])
    }

    /// A formula at a span.
    pub fn at_span(span: Span, body: Formula) -> Formula {
        Formula::at(Word::when(span.from), Word::when(span.to), body)
    }

    /// An atom.
    pub fn atom(predicate: u16, words: Vec<Word>) -> Formula {
        let mut atom = plain(tags::ATOM, words, vec![]);
        atom.predicate = predicate;
        atom
    }

    /// A state fact.
    pub fn fact(predicate: u16, words: Vec<Word>) -> Formula {
        let mut fact = Formula::atom(predicate, words);
        fact.tag = tags::FACT;
        fact
    }

    /// One time at most another.
    pub fn order(left: Word, right: Word) -> Formula {
        plain(tags::ORDER, vec![left, right], vec![])
    }
}

/// Sizes and bytes.
impl Formula {
    /// The sort that the formula binds, if it is a for-all.
    pub fn binds(&self) -> Option<Sort> {
        match self.tag {
            tags::ALL_NAMES => Some(Sort::Name),
            tags::ALL_TIMES => Some(Sort::Time),
            _ => None,
        }
    }

    /// How many levels it has.
    pub fn levels(&self) -> usize {
        1 + self.parts.iter().map(Formula::levels).max().unwrap_or(0)
    }

    /// How many binders stand around its most bound place.
    pub fn binders(&self) -> usize {
        let own = usize::from(self.binds().is_some());
        own + self.parts.iter().map(Formula::binders).max().unwrap_or(0)
    }

    /// How many formulas it is made of, itself among them.
    pub fn count(&self) -> usize {
        1 + self.parts.iter().map(Formula::count).sum::<usize>()
    }

    /// The formula met as number n, in the order of the bytes.
    pub fn nth(&mut self, n: usize) -> &mut Formula {
        if n == 0 {
            return self;
        }
        let mut left = n - 1;
        for part in self.parts.iter_mut() {
            let count = part.count();
            if left < count {
                return part.nth(left);
            }
            left -= count;
        }
        unreachable!("fewer formulas than asked for")
    }

    /// Adds its bytes.
    pub fn write(&self, out: &mut Vec<u8>) {
        out.push(self.tag);
        if matches!(self.tag, tags::ATOM | tags::FACT) {
            out.extend(self.predicate.to_be_bytes());
            out.push(self.words.len() as u8);
        }
        self.words.iter().for_each(|word| word.write(out));
        self.parts.iter().for_each(|part| part.write(out));
    }

    /// Its bytes.
    pub fn bytes(&self) -> Vec<u8> {
        let mut out = Vec::new();
        self.write(&mut out);
        out
    }

    /// Whether a certificate may hold it, with so many bytes, levels and binders to spare.
    pub fn fits(&self, spare: usize) -> bool {
        self.levels() + spare <= 16
            && self.binders() + spare <= 8
            && self.bytes().len() + 2 * spare <= 256
    }
}

/// Words inside.
impl Formula {
    /// The span that an `at` names, if it names times.
    pub fn span(&self) -> Option<Span> {
        let (from, to) = (self.words.first()?, self.words.get(1)?);
        Some(Span {
            from: from.time()?,
            to: to.time()?,
        })
    }

    /// The formula with each word changed; the change is told how many binders of the formula stand around it.
    pub fn changed(&self, change: &mut dyn FnMut(Word, u8) -> Word) -> Formula {
        self.changed_under(0, change)
    }

    /// The same, under so many binders already.
    fn changed_under(&self, depth: u8, change: &mut dyn FnMut(Word, u8) -> Word) -> Formula {
        let inner = depth + u8::from(self.binds().is_some());
        Formula {
            tag: self.tag,
            predicate: self.predicate,
            words: self.words.iter().map(|word| change(*word, depth)).collect(),
            parts: self
                .parts
                .iter()
                .map(|part| part.changed_under(inner, change))
                .collect(),
        }
    }

    /// All its words, in the order of the bytes.
    pub fn all_words(&self) -> Vec<Word> {
        let mut words = Vec::new();
        self.changed(&mut |word, _| {
            words.push(word);
            word
        });
        words
    }

    /// The for-all whose instance at the term is this formula: the chosen places of the term become the variable.
    pub fn abstracted(&self, term: Term, sort: Sort, chosen: &mut dyn FnMut() -> bool) -> Formula {
        let body = self.changed(&mut |word, depth| {
            if word == Word::Fixed(term) && chosen() {
                Word::Bound(depth)
            } else {
                word
            }
        });
        Formula::for_all(sort, body)
    }
}

/// Reads a formula at a place, at most so many levels deep, and moves the place behind it.
pub fn read_formula(bytes: &[u8], place: &mut usize, levels: usize) -> Option<Formula> {
    if levels == 0 {
        return None;
    }
    let tag = *bytes.get(*place)?;
    *place += 1;
    let (mut words, parts) = match tag {
        tags::TOP | tags::FALSITY => (0, 0),
        tags::BOTH | tags::IMPLIES | tags::EITHER => (0, 2),
        tags::ALL_NAMES | tags::ALL_TIMES => (0, 1),
        tags::SAYS => (1, 1),
        tags::AT => (2, 1),
        tags::ATOM | tags::FACT => (0, 0),
        tags::ORDER => (2, 0),
        _ => return None,
    };
    let mut formula = plain(tag, vec![], vec![]);
    if matches!(tag, tags::ATOM | tags::FACT) {
        let head = number(bytes.get(*place..)?, 3)?;
        formula.predicate = (head >> 8) as u16;
        words = (head & 255) as usize;
        *place += 3;
    }
    for _ in 0..words {
        formula.words.push(Word::read(bytes, place)?);
    }
    for _ in 0..parts {
        let part = read_formula(bytes, place, levels - 1)?;
        formula.parts.push(part);
    }
    Some(formula)
}
