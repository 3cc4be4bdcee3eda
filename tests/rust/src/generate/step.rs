//! Proof steps as trees, and their bytes.

use super::tags;
use super::word::Word;
use crate::data::{Term, Time};

/// A proof step: its tag, its number if it names something, its terms and the steps under it.
#[derive(Clone, Debug, PartialEq, Eq)]
pub struct Step {
    pub tag: u8,
    pub index: u8,
    pub terms: Vec<Word>,
    pub parts: Vec<Step>,
}

/// Makers.
impl Step {
    /// A step with steps under it and nothing else.
    pub fn over(tag: u8, parts: Vec<Step>) -> Step {
        Step {
            tag,
            index: 0,
            terms: vec![],
            parts,
        }
    }

    /// A step with nothing under it.
    pub fn leaf(tag: u8) -> Step {
        Step::over(tag, vec![])
    }

    /// The local assumption or the certificate of a number.
    pub fn named(tag: u8, index: usize) -> Step {
        let mut step = Step::leaf(tag);
        step.index = index as u8;
        step
    }

    /// A certificate of a number.
    pub fn certificate(index: usize) -> Step {
        Step::named(tags::CERTIFICATE, index)
    }

    /// An implication applied to what it wants, on an interval.
    pub fn apply(first: Step, second: Step, from: Time, to: Time) -> Step {
        let mut step = Step::over(tags::APPLY, vec![first, second]);
        step.terms = vec![Word::when(from), Word::when(to)];
        step
    }

    /// A for-all taken at a term.
    pub fn instance(term: Term, part: Step) -> Step {
        let mut step = Step::over(tags::INSTANCE, vec![part]);
        step.terms = vec![Word::Fixed(term)];
        step
    }
}

/// How many numbers, terms and steps a tag is followed by.
pub fn shape(tag: u8) -> Option<(usize, usize, usize)> {
    match tag {
        tags::LOCAL | tags::CERTIFICATE => Some((1, 0, 0)),
        tags::PAIR | tags::AT_OUT | tags::SAYS_OUT => Some((0, 0, 2)),
        tags::FIRST | tags::SECOND | tags::AT_IN | tags::SAYS_IN => Some((0, 0, 1)),
        tags::LEFT | tags::RIGHT | tags::BY_FALSITY => Some((0, 0, 1)),
        tags::CASES => Some((0, 0, 3)),
        tags::TRIVIAL | tags::STATE | tags::COMPARE => Some((0, 0, 0)),
        tags::APPLY => Some((0, 2, 2)),
        tags::INSTANCE => Some((0, 1, 1)),
        _ => None,
    }
}

/// Whether the first step under a tag must infer; those behind it never need to.
pub fn infers_first(tag: u8) -> bool {
    let checks = [
        tags::PAIR,
        tags::AT_IN,
        tags::SAYS_IN,
        tags::LEFT,
        tags::RIGHT,
    ];
    !checks.contains(&tag)
}

/// How many assumptions a tag adds for the step under it at a position.
pub fn adds(tag: u8, position: usize) -> usize {
    let assumes = matches!(tag, tags::AT_OUT | tags::SAYS_OUT | tags::CASES);
    usize::from(assumes && position > 0)
}

/// Sizes, places and bytes.
impl Step {
    /// How many levels it has.
    pub fn levels(&self) -> usize {
        1 + self.parts.iter().map(Step::levels).max().unwrap_or(0)
    }

    /// How many steps it is made of, itself among them.
    pub fn count(&self) -> usize {
        1 + self.parts.iter().map(Step::count).sum::<usize>()
    }

    /// How many of its steps have a tag.
    pub fn count_of(&self, tag: u8) -> usize {
        let own = usize::from(self.tag == tag);
        own + self
            .parts
            .iter()
            .map(|part| part.count_of(tag))
            .sum::<usize>()
    }

    /// Whether it names no assumption but those that it makes itself, and so many others.
    pub fn closed(&self, around: usize) -> bool {
        let inside =
            |(position, part): (usize, &Step)| part.closed(around + adds(self.tag, position));
        let own = self.tag != tags::LOCAL || usize::from(self.index) < around;
        own && self.parts.iter().enumerate().all(inside)
    }

    /// The step met as number n, in the order of the bytes, with the number of assumptions around it.
    pub fn nth(&mut self, n: usize) -> (&mut Step, usize) {
        self.nth_under(n, 0)
    }

    /// The same, under so many assumptions already.
    fn nth_under(&mut self, n: usize, around: usize) -> (&mut Step, usize) {
        if n == 0 {
            return (self, around);
        }
        let mut left = n - 1;
        for (position, part) in self.parts.iter_mut().enumerate() {
            let count = part.count();
            if left < count {
                return part.nth_under(left, around + adds(self.tag, position));
            }
            left -= count;
        }
        unreachable!("fewer steps than asked for")
    }

    /// Adds its bytes.
    pub fn write(&self, out: &mut Vec<u8>) {
        out.push(self.tag);
        if matches!(self.tag, tags::LOCAL | tags::CERTIFICATE) {
            out.push(self.index);
        }
        if self.tag == tags::INSTANCE {
            self.terms.iter().for_each(|term| term.write(out));
        }
        self.parts.iter().for_each(|part| part.write(out));
        if self.tag != tags::INSTANCE {
            self.terms.iter().for_each(|term| term.write(out));
        }
    }

    /// Its bytes.
    pub fn bytes(&self) -> Vec<u8> {
        let mut out = Vec::new();
        self.write(&mut out);
        out
    }

    /// Changes each certificate's number.
    pub fn renumbered(&mut self, numbers: &[usize]) {
        if self.tag == tags::CERTIFICATE {
            self.index = numbers[usize::from(self.index)] as u8;
        }
        self.parts
            .iter_mut()
            .for_each(|part| part.renumbered(numbers));
    }
}

/// Reads a step at a place, at most so many levels deep, and moves the place behind it.
pub fn read_step(bytes: &[u8], place: &mut usize, levels: usize) -> Option<Step> {
    if levels == 0 {
        return None;
    }
    let tag = *bytes.get(*place)?;
    *place += 1;
    let (numbers, terms, parts) = shape(tag)?;
    let mut step = Step::leaf(tag);
    if numbers == 1 {
        step.index = *bytes.get(*place)?;
        *place += 1;
    }
    if tag == tags::INSTANCE {
        step.terms.push(Word::read(bytes, place)?);
    }
    for _ in 0..parts {
        let part = read_step(bytes, place, levels - 1)?;
        step.parts.push(part);
    }
    for _ in step.terms.len()..terms {
        step.terms.push(Word::read(bytes, place)?);
    }
    Some(step)
}

/// The proof that bytes spell, if they spell one and nothing more.
pub fn read_proof(bytes: &[u8]) -> Option<Step> {
    let mut place = 0;
    let step = read_step(bytes, &mut place, 100)?;
    (place == bytes.len()).then_some(step)
}
