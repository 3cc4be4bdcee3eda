//! The proof as a tree of steps, each with the offset of its tag, and its reader.

use super::bytes::Bytes;
use super::terms::{read_term, read_time};
use super::times::Interval;
use crate::data::Term;

/// How long a proof can be.
const MOST_BYTES: usize = 4096;

/// How many steps can stand inside of each other, the innermost one included.
const MOST_LEVELS: usize = 32;

/// How many steps can ask the state, each for one fact: no more than a procap can list.
const MOST_STATE_STEPS: usize = 16;

/// A step of either kind.
#[derive(Debug)]
pub enum Step {
    Infers(Inference),
    Checks(Check),
}

/// A step that infers a judgement.
#[derive(Debug)]
pub struct Inference {
    pub offset: u64,
    pub rule: Inferring,
}

/// By which rule a judgement is inferred, and from what.
#[derive(Debug)]
pub enum Inferring {
    Assumption(usize),
    Certificate(usize),
    First(Box<Inference>),
    Second(Box<Inference>),
    Apply(Box<Inference>, Box<Step>, Interval),
    Instance(Term, Box<Inference>),
}

/// A step that checks a goal.
#[derive(Debug)]
pub struct Check {
    pub offset: u64,
    pub rule: Checking,
}

/// By which rule a goal is checked, and with what.
#[derive(Debug)]
pub enum Checking {
    Pair(Box<Step>, Box<Step>),
    Top,
    AtIn(Box<Step>),
    AtOut(Box<Inference>, Box<Step>),
    SaysIn(Box<Step>),
    SaysOut(Box<Inference>, Box<Step>),
    State,
    Order,
    Side(Side, Box<Step>),
    Cases(Box<Inference>, Box<Step>, Box<Step>),
    ByFalsity(Box<Inference>),
}

/// A side of an or.
#[derive(Clone, Copy, Debug)]
pub enum Side {
    Left,
    Right,
}

impl Inferring {
    /// The tag of the steps of this rule.
    pub fn tag(&self) -> u8 {
        match self {
            Inferring::Assumption(_) => 0x20,
            Inferring::Certificate(_) => 0x21,
            Inferring::First(_) => 0x23,
            Inferring::Second(_) => 0x24,
            Inferring::Apply(..) => 0x26,
            Inferring::Instance(..) => 0x27,
        }
    }
}

impl Checking {
    /// The tag of the steps of this rule.
    pub fn tag(&self) -> u8 {
        match self {
            Checking::Pair(..) => 0x22,
            Checking::Top => 0x25,
            Checking::AtIn(_) => 0x28,
            Checking::AtOut(..) => 0x29,
            Checking::SaysIn(_) => 0x2a,
            Checking::SaysOut(..) => 0x2b,
            Checking::State => 0x2c,
            Checking::Order => 0x2d,
            Checking::Side(Side::Left, _) => 0x2e,
            Checking::Side(Side::Right, _) => 0x2f,
            Checking::Cases(..) => 0x30,
            Checking::ByFalsity(_) => 0x31,
        }
    }
}

/// Reads one proof and counts what is limited in the whole of it.
struct StepReader<'a> {
    bytes: Bytes<'a>,
    records: usize,
    state_steps: usize,
}

/// What stands around a step: how many levels it may have, and how many assumptions it may name.
#[derive(Clone, Copy)]
struct Room {
    levels: usize,
    assumptions: usize,
}

/// The proof that fills these bytes, if one does, where there are this many records.
pub fn read_proof(proof: &[u8], records: usize) -> Option<Step> {
    if proof.len() > MOST_BYTES {
        return None;
    }
    let mut reader = StepReader {
        bytes: Bytes::of(proof),
        records,
        state_steps: 0,
    };
    let step = reader.step(Room {
        levels: MOST_LEVELS,
        assumptions: 0,
    })?;
    reader.bytes.ended().then_some(step)
}

impl Room {
    /// The room one level further in, if there is any.
    fn below(self) -> Option<Room> {
        let levels = self.levels.checked_sub(1)?;
        Some(Room { levels, ..self })
    }

    /// The same room with one more assumption to name.
    fn assuming(self) -> Room {
        let assumptions = self.assumptions + 1;
        Room {
            assumptions,
            ..self
        }
    }
}

impl StepReader<'_> {
    /// The step that comes next, if it is one and fits the room.
    fn step(&mut self, room: Room) -> Option<Step> {
        let room = room.below()?;
        let offset = self.bytes.place() as u64;
        let tag = self.bytes.byte()?;
        if matches!(tag, 0x20 | 0x21 | 0x23 | 0x24 | 0x26 | 0x27) {
            let rule = self.inferring(tag, room)?;
            Some(Step::Infers(Inference { offset, rule }))
        } else {
            let rule = self.checking(tag, room)?;
            Some(Step::Checks(Check { offset, rule }))
        }
    }

    /// The rest of an inferring step with this tag, its parts in this room.
    fn inferring(&mut self, tag: u8, room: Room) -> Option<Inferring> {
        match tag {
            0x20 => self.index(room.assumptions).map(Inferring::Assumption),
            0x21 => self.index(self.records).map(Inferring::Certificate),
            0x23 => self.inference(room).map(Inferring::First),
            0x24 => self.inference(room).map(Inferring::Second),
            0x26 => {
                let implication = self.inference(room)?;
                let condition = self.part(room)?;
                let from = read_time(&mut self.bytes)?;
                let to = read_time(&mut self.bytes)?;
                let interval = Interval { from, to };
                Some(Inferring::Apply(implication, condition, interval))
            }
            0x27 => {
                let term = read_term(&mut self.bytes)?;
                Some(Inferring::Instance(term, self.inference(room)?))
            }
            _ => None,
        }
    }

    /// The rest of a checking step with this tag, its parts in this room.
    fn checking(&mut self, tag: u8, room: Room) -> Option<Checking> {
        match tag {
            0x22 => Some(Checking::Pair(self.part(room)?, self.part(room)?)),
            0x25 => Some(Checking::Top),
            0x28 => self.part(room).map(Checking::AtIn),
            0x29 => {
                let inference = self.inference(room)?;
                Some(Checking::AtOut(inference, self.part(room.assuming())?))
            }
            0x2a => self.part(room).map(Checking::SaysIn),
            0x2b => {
                let inference = self.inference(room)?;
                Some(Checking::SaysOut(inference, self.part(room.assuming())?))
            }
            0x2c => self.state_step(),
            0x2d => Some(Checking::Order),
            0x2e => Some(Checking::Side(Side::Left, self.part(room)?)),
            0x2f => Some(Checking::Side(Side::Right, self.part(room)?)),
            0x30 => {
                let (inference, rest) = (self.inference(room)?, room.assuming());
                let left = self.part(rest)?;
                Some(Checking::Cases(inference, left, self.part(rest)?))
            }
            0x31 => self.inference(room).map(Checking::ByFalsity),
            _ => None,
        }
    }

    /// A step of the state, if the proof may have one more.
    fn state_step(&mut self) -> Option<Checking> {
        self.state_steps += 1;
        (self.state_steps <= MOST_STATE_STEPS).then_some(Checking::State)
    }

    /// The index that comes next, if it is one of this many.
    fn index(&mut self, count: usize) -> Option<usize> {
        let index = usize::from(self.bytes.byte()?);
        (index < count).then_some(index)
    }

    /// The step that comes next as a part of another one.
    fn part(&mut self, room: Room) -> Option<Box<Step>> {
        self.step(room).map(Box::new)
    }

    /// The step that comes next, if it infers.
    fn inference(&mut self, room: Room) -> Option<Box<Inference>> {
        match self.step(room)? {
            Step::Infers(inference) => Some(Box::new(inference)),
            Step::Checks(_) => None,
        }
    }
}
