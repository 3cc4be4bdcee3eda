//! One small damage to a case, anywhere in it.

use super::clock::any_moment;
use super::damage_bytes::damaged_bytes;
use super::damage_formula::damaged_formula;
use super::damage_pairs::damage_pairs;
use super::damage_proof::damaged_proof;
use super::formula::read_formula;
use super::step::read_proof;
use super::Random;
use crate::data::{Case, Record, Time, LATEST};

/// The case with one small damage.
pub fn damaged(random: &mut Random, case: &Case) -> Case {
    loop {
        let other = perhaps_damaged(random, case);
        if other != *case {
            return other;
        }
    }
}

/// The case with one small damage that may change nothing.
fn perhaps_damaged(random: &mut Random, case: &Case) -> Case {
    let mut other = case.clone();
    if !other.pairs.is_empty() && random.one_in(3) {
        damage_pairs(random, &mut other.pairs);
        return other;
    }
    match random.below(20) {
        0..=7 => in_proof(random, &mut other),
        8..=11 => in_formula(random, &mut other),
        12..=14 => in_record(random, &mut other),
        15 => in_list(random, &mut other),
        16 => in_request(random, &mut other),
        17..=18 => other.proof = damaged_bytes(random, &case.proof),
        _ => other.buffer = damaged_bytes(random, &case.buffer),
    }
    other
}

/// Damages a step of the proof, or its bytes where they are no proof.
fn in_proof(random: &mut Random, case: &mut Case) {
    case.proof = match read_proof(&case.proof) {
        Some(proof) => damaged_proof(random, proof, case.records.len()).bytes(),
        None => damaged_bytes(random, &case.proof),
    };
}

/// Damages a formula of a certificate, or its bytes where they are none.
fn in_formula(random: &mut Random, case: &mut Case) {
    if case.records.is_empty() {
        return in_proof(random, case);
    }
    let index = random.below(case.records.len() as u64) as usize;
    let record = case.records[index];
    let Some(part) = part_of(case, record) else {
        return in_record(random, case);
    };
    let mut place = 0;
    let bytes = match read_formula(&part, &mut place, 100) {
        Some(formula) if place == part.len() => damaged_formula(random, formula).bytes(),
        _ => damaged_bytes(random, &part),
    };
    put_part(case, index, &bytes);
}

/// The bytes that a record names, if the buffer has them.
fn part_of(case: &Case, record: Record) -> Option<Vec<u8>> {
    let end = record.start.checked_add(record.length)?;
    let part = case.buffer.get(record.start as usize..end as usize)?;
    Some(part.to_vec())
}

/// Puts other bytes where a record's part is; parts behind it move along.
fn put_part(case: &mut Case, index: usize, bytes: &[u8]) {
    let record = case.records[index];
    let end = record.start + record.length;
    case.buffer
        .splice(record.start as usize..end as usize, bytes.iter().copied());
    for (other, one) in case.records.iter_mut().enumerate() {
        if other != index && one.start >= end {
            one.start = (one.start - record.length).wrapping_add(bytes.len() as u64);
        }
    }
    case.records[index].length = bytes.len() as u64;
}

/// Damages one field of a record.
fn in_record(random: &mut Random, case: &mut Case) {
    if case.records.is_empty() {
        return in_request(random, case);
    }
    let index = random.below(case.records.len() as u64) as usize;
    let length = case.buffer.len() as u64;
    let record = &mut case.records[index];
    match random.below(12) {
        0..=2 => record.principal = another_name(random, record.principal),
        3..=5 => record.from = another_time(random, record.from),
        6..=8 => record.to = another_time(random, record.to),
        9 => std::mem::swap(&mut record.from, &mut record.to),
        10 => record.start = another_size(random, record.start, length),
        _ => record.length = another_size(random, record.length, length),
    }
}

/// Another name, mostly close by.
pub fn another_name(random: &mut Random, name: u16) -> u16 {
    match random.below(5) {
        0 => name.wrapping_add(1),
        1 => name.wrapping_sub(1),
        2 => 1,
        3 => random.next() as u16,
        _ => random.below(10) as u16,
    }
}

/// Another time, mostly close by, seldom no time for a record.
fn another_time(random: &mut Random, time: Time) -> Time {
    match (random.below(14), time) {
        (0, _) => Time::MinusInfinity,
        (1, _) => Time::PlusInfinity,
        (2, _) => Time::Ctime,
        (3, _) => Time::Moment(LATEST + 1),
        (4, _) => Time::Moment(u64::MAX - random.below(2)),
        (5..=7, Time::Moment(moment)) => Time::Moment(moment.wrapping_add(1)),
        (8..=10, Time::Moment(moment)) => Time::Moment(moment.saturating_sub(1)),
        _ => Time::Moment(any_moment(random)),
    }
}

/// Another start or length for a buffer of some length.
fn another_size(random: &mut Random, size: u64, length: u64) -> u64 {
    match random.below(10) {
        0..=1 => size.wrapping_add(1),
        2..=3 => size.wrapping_sub(1),
        4 => length,
        5 => length.wrapping_add(1),
        6 => u64::MAX - random.below(3),
        7 => (1u64 << (8 * random.below(8))).wrapping_add(size),
        8 => u64::MAX - size.wrapping_sub(1),
        _ => random.below(length.wrapping_add(2).max(1)),
    }
}

/// Damages the list of records.
fn in_list(random: &mut Random, case: &mut Case) {
    if case.records.is_empty() {
        return in_request(random, case);
    }
    let count = case.records.len() as u64;
    let (one, other) = (random.below(count) as usize, random.below(count) as usize);
    let record = case.records[one];
    match random.below(6) {
        0..=1 => case.records.swap(one, other),
        2 => {
            case.records.remove(one);
        }
        3 => case.records.insert(other, record),
        4 => case.records[other] = record,
        _ => {
            let wanted = 31 + random.below(5) as usize;
            while case.records.len() < wanted {
                case.records.push(record);
            }
        }
    }
}

/// Damages one field of the request.
fn in_request(random: &mut Random, case: &mut Case) {
    let request = &mut case.request;
    let field = match random.below(3) {
        0 => &mut request.who,
        1 => &mut request.what,
        _ => &mut request.right,
    };
    *field = another_name(random, *field);
}
