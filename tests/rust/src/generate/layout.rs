//! Puts a policy into records and one buffer, and a proof beside them.

use super::formula::Formula;
use super::office::{Certificate, Office};
use super::step::Step;
use super::tags;
use super::Random;
use crate::data::{Case, Record, Request};

/// The case that a policy and a proof make, laid out in one of several manners.
pub fn case_of(office: &mut Office, request: Request, mut proof: Step) -> Case {
    add_unused(office);
    let mut policy = std::mem::take(&mut office.policy);
    let random = &mut *office.random;
    if random.one_in(2) {
        shuffle(random, &mut policy, &mut proof);
    }
    let (records, buffer) = match random.below(6) {
        0 => with_gaps(random, &policy),
        1 => shared(random, &policy),
        _ => in_a_row(&policy),
    };
    Case {
        request,
        records,
        buffer,
        pairs: std::mem::take(&mut office.pairs),
        proof: proof.bytes(),
    }
}

/// A record for a certificate whose part is at a place.
fn record(certificate: &Certificate, start: usize, length: usize) -> Record {
    Record {
        principal: certificate.principal,
        from: certificate.span.from,
        to: certificate.span.to,
        start: start as u64,
        length: length as u64,
    }
}

/// Adds certificates that the proof does not need, now and then.
fn add_unused(office: &mut Office) {
    if !office.random.one_in(4) {
        return;
    }
    for _ in 0..office.random.below(4) {
        let levels = 1 + office.random.below(6) as usize;
        let beside = office.beside(levels);
        let formula = office.at_the_press(&beside);
        if office.policy.len() < 32 && formula.fits(0) {
            let span = super::clock::Span {
                from: office.clock.any(office.random, 0),
                to: office.clock.any(office.random, 0),
            };
            let principal = office.name();
            office.policy.push(Certificate {
                principal,
                span,
                formula,
            });
        }
    }
}

/// Puts the certificates into another order, and their numbers in the proof with them.
fn shuffle(random: &mut Random, policy: &mut Vec<Certificate>, proof: &mut Step) {
    let mut order: Vec<usize> = (0..policy.len()).collect();
    for place in (1..order.len()).rev() {
        order.swap(place, random.below(place as u64 + 1) as usize);
    }
    let mut numbers = vec![0; order.len()];
    for (new, old) in order.iter().enumerate() {
        numbers[*old] = new;
    }
    *policy = order.iter().map(|old| policy[*old].clone()).collect();
    proof.renumbered(&numbers);
}

/// Parts that follow one another and fill the buffer.
pub fn in_a_row(policy: &[Certificate]) -> (Vec<Record>, Vec<u8>) {
    let (mut records, mut buffer) = (Vec::new(), Vec::new());
    for certificate in policy {
        let bytes = certificate.formula.bytes();
        records.push(record(certificate, buffer.len(), bytes.len()));
        buffer.extend(bytes);
    }
    (records, buffer)
}

/// Parts with other bytes between them.
fn with_gaps(random: &mut Random, policy: &[Certificate]) -> (Vec<Record>, Vec<u8>) {
    let (mut records, mut buffer) = (Vec::new(), Vec::new());
    for certificate in policy {
        for _ in 0..random.below(4) {
            buffer.push(random.next() as u8);
        }
        let bytes = certificate.formula.bytes();
        records.push(record(certificate, buffer.len(), bytes.len()));
        buffer.extend(bytes);
    }
    buffer.extend(vec![random.next() as u8; random.below(3) as usize]);
    (records, buffer)
}

/// Parts that lie in each other where their bytes allow, and records for closed formulas inside of others.
fn shared(random: &mut Random, policy: &[Certificate]) -> (Vec<Record>, Vec<u8>) {
    let mut by_length: Vec<Vec<u8>> = policy.iter().map(|one| one.formula.bytes()).collect();
    by_length.sort_by_key(|bytes| std::cmp::Reverse(bytes.len()));
    let mut buffer = Vec::new();
    for bytes in &by_length {
        if place_of(&buffer, bytes).is_none() {
            buffer.extend(bytes);
        }
    }
    let mut records = Vec::new();
    for certificate in policy {
        let bytes = certificate.formula.bytes();
        let start = place_of(&buffer, &bytes).unwrap_or(0);
        records.push(record(certificate, start, bytes.len()));
    }
    if !policy.is_empty() && records.len() < 32 {
        let certificate = random.pick(policy);
        if let Some(bytes) = closed_inside(random, &certificate.formula) {
            let start = place_of(&buffer, &bytes).unwrap_or(0);
            records.push(record(certificate, start, bytes.len()));
        }
    }
    (records, buffer)
}

/// Where bytes first stand in a buffer.
fn place_of(buffer: &[u8], bytes: &[u8]) -> Option<usize> {
    buffer
        .windows(bytes.len().max(1))
        .position(|window| window == bytes)
}

/// The bytes of a formula inside that no variable leaves.
fn closed_inside(random: &mut Random, formula: &Formula) -> Option<Vec<u8>> {
    let mut whole = formula.clone();
    let count = whole.count() as u64;
    let inside = whole.nth(random.below(count) as usize);
    let mut closed = true;
    inside.changed(&mut |word, depth| {
        if let super::word::Word::Bound(index) = word {
            closed &= index < depth;
        }
        word
    });
    (closed && inside.tag != tags::TOP).then(|| inside.bytes())
}
