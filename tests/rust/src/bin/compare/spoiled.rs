//! One damage to a procap's value: a byte of it, a field of it, or its length.

use second_opinion::generate::{damaged_bytes, Random};

/// Where the fields of a value's head stand.
const FROM: usize = 7;
const TO: usize = 15;
const COUNT: usize = 23;

/// Where the facts begin, and how long each is.
const FACTS: usize = 24;
const FACT_BYTES: usize = 39;

/// The value with one damage, which may leave it a value that can be written.
pub fn spoiled(random: &mut Random, value: &[u8]) -> Vec<u8> {
    let mut other = value.to_vec();
    match random.below(14) {
        0 => other[0] = random.next() as u8,
        1 => other[FROM..TO].copy_from_slice(&random.next().to_be_bytes()),
        2 => other[TO..COUNT].copy_from_slice(&(1u64 << 40).to_be_bytes()),
        3 => other[FROM..COUNT].rotate_left(8),
        4 => other[COUNT] = another_count(random, value[COUNT], 16),
        5 => fact_count(random, &mut other),
        6 => fact_repeated(random, &mut other),
        7..=8 => term_kind(random, &mut other),
        9 => term_value(random, &mut other),
        10 => other.truncate(random.below(value.len() as u64) as usize),
        11 => other = damaged_bytes(random, value),
        _ => {
            let place = random.below(value.len() as u64) as usize;
            other[place] = random.next() as u8;
        }
    }
    other
}

/// Another count, where there can be so many.
fn another_count(random: &mut Random, count: u8, most: u8) -> u8 {
    let choices = [
        count.wrapping_add(1),
        count.wrapping_sub(1),
        0,
        most,
        most + 1,
        255,
    ];
    *random.pick(&choices)
}

/// Where some fact begins, mostly one that is there or the first that is not.
fn some_fact(random: &mut Random, value: &[u8]) -> usize {
    let near = u64::from(value[COUNT]).min(15) + 1;
    let index = match random.one_in(4) {
        true => random.below(16),
        false => random.below(near),
    };
    FACTS + FACT_BYTES * index as usize
}

/// Where some term of some fact begins.
fn some_term(random: &mut Random, value: &[u8]) -> usize {
    let fact = some_fact(random, value);
    fact + 3 + 9 * random.below(4) as usize
}

/// Changes the count of a fact.
fn fact_count(random: &mut Random, value: &mut [u8]) {
    let place = some_fact(random, value) + 2;
    value[place] = another_count(random, value[place], 4);
}

/// Puts a fact where another one was, and counts both.
fn fact_repeated(random: &mut Random, value: &mut [u8]) {
    let (one, other) = (some_fact(random, value), some_fact(random, value));
    value.copy_within(one..one + FACT_BYTES, other);
    if random.one_in(2) && value[COUNT] < 16 {
        value[COUNT] += 1;
    }
}

/// Changes the kind of a term.
fn term_kind(random: &mut Random, value: &mut [u8]) {
    let place = some_term(random, value);
    value[place] = *random.pick(&[0, 1, 2, 3, 4, 5, 128, 255]);
}

/// Changes the value of a term, often by more than a name can hold.
fn term_value(random: &mut Random, value: &mut [u8]) {
    let place = some_term(random, value) + 1;
    let number = match random.below(4) {
        0 => 65_536 << random.below(48),
        1 => 1 << 40,
        2 => random.next(),
        _ => random.below(3),
    };
    value[place..place + 8].copy_from_slice(&number.to_be_bytes());
}
