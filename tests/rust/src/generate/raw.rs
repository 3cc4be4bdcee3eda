//! Cases of raw bytes: some quite at random, some that follow the forms of formulas and proofs without any sense.

use super::clock::any_moment;
use super::lend::raw_pairs;
use super::step::{adds, infers_first, shape};
use super::tags;
use super::Random;
use crate::data::{Case, Record, Request, Time, LATEST};

/// The tags of formulas with none inside.
const LEAVES: [u8; 5] = [
    tags::TOP,
    tags::ATOM,
    tags::FACT,
    tags::ORDER,
    tags::FALSITY,
];

/// A case of raw bytes.
pub fn raw(random: &mut Random) -> Case {
    let mut buffer = Vec::new();
    let mut records = Vec::new();
    let count = some_count(random);
    for _ in 0..count {
        let start = buffer.len() as u64;
        raw_part(random, &mut buffer);
        records.push(raw_record(random, start, buffer.len() as u64));
    }
    if random.one_in(3) {
        let length = random.below(1000 - buffer.len().min(999) as u64);
        buffer.extend(random_bytes(random, length));
    }
    Case {
        request: raw_request(random),
        proof: raw_proof(random, records.len() as u64),
        pairs: raw_pairs(random),
        records,
        buffer,
    }
}

/// How many records there are.
fn some_count(random: &mut Random) -> u64 {
    match random.below(10) {
        0 => 0,
        1 => 28 + random.below(13),
        2 => random.below(33),
        _ => 1 + random.below(4),
    }
}

/// A request, mostly about small names.
fn raw_request(random: &mut Random) -> Request {
    let mask = if random.one_in(3) { 0xffff } else { 1 };
    let mut name = || random.next() as u16 & mask;
    Request {
        who: name(),
        what: name(),
        right: name(),
    }
}

/// Bytes at random.
fn random_bytes(random: &mut Random, length: u64) -> Vec<u8> {
    (0..length).map(|_| random.next() as u8).collect()
}

/// A record for a part, seldom with something wrong about it.
fn raw_record(random: &mut Random, start: u64, end: u64) -> Record {
    let mut record = Record {
        principal: *random.pick(&[0, 1, 1, 1, 2]),
        from: raw_time(random),
        to: raw_time(random),
        start,
        length: end - start,
    };
    match random.below(300) {
        0 => record.start = random.next(),
        1 => record.length = random.next(),
        2 => record.start = random.below(1000),
        3 => record.length = random.below(300),
        4 => record.from = Time::Ctime,
        5 => record.to = Time::Moment(random.next()),
        6 => record.to = Time::Moment(LATEST + random.below(2)),
        7 => record.principal = random.next() as u16,
        _ => {}
    }
    record
}

/// A time that a record may have.
fn raw_time(random: &mut Random) -> Time {
    match random.below(4) {
        0 => Time::MinusInfinity,
        1 => Time::PlusInfinity,
        _ => Time::Moment(any_moment(random)),
    }
}

/// Adds a part: mostly a formula, else bytes.
fn raw_part(random: &mut Random, out: &mut Vec<u8>) {
    if random.one_in(60) {
        let length = random.below(30);
        out.extend(random_bytes(random, length));
    } else {
        let levels = 1 + random.below(5);
        raw_formula(random, out, levels, &[]);
    }
}

/// Adds a formula of at most so many levels under binders with the tags given, the innermost first.
fn raw_formula(random: &mut Random, out: &mut Vec<u8>, levels: u64, binders: &[u8]) {
    let tag = if levels <= 1 {
        *random.pick(&LEAVES)
    } else {
        tags::any_of(tags::FORMULAS, random)
    };
    out.push(tag);
    let (words, parts) = match tag {
        tags::BOTH | tags::IMPLIES | tags::EITHER => (0, 2),
        tags::ALL_NAMES | tags::ALL_TIMES => (0, 1),
        tags::SAYS => (1, 1),
        tags::AT => (2, 1),
        tags::ORDER => (2, 0),
        tags::ATOM => (*random.pick(&[0, 1, 2, 3, 3, 3, 3, 4]), 0),
        tags::FACT => (random.below(5), 0),
        _ => (0, 0),
    };
    if matches!(tag, tags::ATOM | tags::FACT) {
        let predicate = *random.pick(&[100u16, 100, 200]);
        out.extend(predicate.to_be_bytes());
        out.push(words as u8);
    }
    for _ in 0..words {
        raw_word(random, out, tag, binders);
    }
    let mut inner = binders.to_vec();
    if matches!(tag, tags::ALL_NAMES | tags::ALL_TIMES) {
        inner.insert(0, tag);
    }
    for _ in 0..parts {
        raw_formula(random, out, levels - 1, &inner);
    }
}

/// Adds a word of a formula, mostly of the sort that its tag asks for.
fn raw_word(random: &mut Random, out: &mut Vec<u8>, tag: u8, binders: &[u8]) {
    let timely = match tag {
        tags::SAYS => random.one_in(60),
        tags::AT | tags::ORDER => !random.one_in(60),
        _ => random.one_in(6),
    };
    if !binders.is_empty() && random.one_in(2) {
        let index = random.below(binders.len() as u64) as usize;
        let fits = timely == (binders[index] == tags::ALL_TIMES);
        if fits || random.one_in(20) {
            return out.extend([tags::BOUND, index as u8]);
        }
    }
    raw_term(random, out, timely, 60);
}

/// Adds a time or a name; ctime once in so many times.
fn raw_term(random: &mut Random, out: &mut Vec<u8>, timely: bool, ctime_one_in: u64) {
    if !timely {
        return out.extend([tags::NAME, 0, random.below(2) as u8]);
    }
    if random.one_in(ctime_one_in) {
        return out.push(tags::CTIME);
    }
    match random.below(3) {
        0 => out.push(tags::MINUS_INFINITY),
        1 => out.push(tags::PLUS_INFINITY),
        _ => {
            out.push(tags::MOMENT);
            out.extend(&any_moment(random).to_be_bytes()[3..]);
        }
    }
}

/// A proof of raw bytes.
fn raw_proof(random: &mut Random, certificates: u64) -> Vec<u8> {
    let mut out = Vec::new();
    match random.below(12) {
        0 => {
            let length = random.below(60);
            out = random_bytes(random, length);
        }
        1 => {
            let length = random.below(5000);
            out = random_bytes(random, length);
        }
        2 => {
            let length = random.below(200);
            out.extend((0..length).map(|_| tags::any_of(tags::STEPS, random)));
        }
        _ => {
            let deep = random.one_in(6);
            let levels = 2 + random.below(if deep { 34 } else { 6 });
            out.push(tags::SAYS_IN);
            let around = Around {
                levels,
                assumptions: 0,
                certificates,
                infers: false,
            };
            raw_step(random, &mut out, around);
        }
    }
    out.truncate(5000);
    out
}

/// What stands around a step.
#[derive(Clone, Copy)]
struct Around {
    levels: u64,
    assumptions: u64,
    certificates: u64,
    infers: bool,
}

/// Adds a step.
fn raw_step(random: &mut Random, out: &mut Vec<u8>, around: Around) {
    let tag = raw_tag(random, out.len(), around);
    let (numbers, terms, parts) = shape(tag).unwrap_or((0, 0, 0));
    out.push(tag);
    if numbers == 1 {
        let limit = match tag {
            tags::LOCAL => around.assumptions,
            _ => around.certificates,
        };
        out.push(random.below(limit.max(1)) as u8);
    }
    if tag == tags::INSTANCE {
        let timely = random.one_in(2);
        raw_term(random, out, timely, 3);
    }
    for part in 0..parts {
        let infers = part == 0 && infers_first(tag);
        let inner = Around {
            levels: around.levels - 1,
            assumptions: around.assumptions + adds(tag, part) as u64,
            infers: infers && !random.one_in(40),
            ..around
        };
        raw_step(random, out, inner);
    }
    if tag == tags::APPLY {
        (0..terms).for_each(|_| raw_term(random, out, true, 3));
    }
}

/// A tag for a step, where so many bytes stand before it.
fn raw_tag(random: &mut Random, before: usize, around: Around) -> u8 {
    let short = around.levels <= 1 || before > 3000;
    let choices: &[u8] = match (around.infers, short || random.one_in(3)) {
        (true, true) => &[tags::LOCAL, tags::CERTIFICATE],
        (true, false) => &[tags::FIRST, tags::SECOND, tags::APPLY, tags::INSTANCE],
        (false, true) => &[
            tags::LOCAL,
            tags::CERTIFICATE,
            tags::CERTIFICATE,
            tags::TRIVIAL,
            tags::STATE,
            tags::COMPARE,
        ],
        (false, false) => return tags::any_of(tags::STEPS, random),
    };
    match *random.pick(choices) {
        tags::LOCAL if around.assumptions == 0 => tags::CERTIFICATE,
        tag => tag,
    }
}
