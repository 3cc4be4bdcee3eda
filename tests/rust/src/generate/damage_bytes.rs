//! One small damage to bytes of any kind.

use super::{tags, Random};

/// A byte that formulas, proofs and texts have often.
fn likely_byte(random: &mut Random) -> u8 {
    match random.below(6) {
        0 => random.below(6) as u8,
        1 => tags::any_or_none_of(tags::FORMULAS, random),
        2 => tags::any_or_none_of(tags::STEPS, random),
        3 => *random.pick(b"0123456789abcdef=\n -+ntc"),
        4 => *random.pick(&[0, 1, 0x7f, 0x80, 0xff]),
        _ => random.next() as u8,
    }
}

/// The bytes with one small damage.
pub fn damaged_bytes(random: &mut Random, bytes: &[u8]) -> Vec<u8> {
    loop {
        let out = perhaps_damaged(random, bytes);
        if out != bytes {
            return out;
        }
    }
}

/// The bytes with one small damage that may change nothing.
fn perhaps_damaged(random: &mut Random, bytes: &[u8]) -> Vec<u8> {
    let mut out = bytes.to_vec();
    if out.is_empty() {
        out.push(likely_byte(random));
        return out;
    }
    let place = random.below(out.len() as u64) as usize;
    match random.below(16) {
        0..=1 => out[place] ^= 1 << random.below(8),
        2..=3 => out[place] = likely_byte(random),
        4 => out[place] = out[place].wrapping_add(1),
        5 => out[place] = out[place].wrapping_sub(1),
        6 => out.insert(place, likely_byte(random)),
        7 => {
            out.remove(place);
        }
        8 => out.insert(place, out[place]),
        9 => {
            let other = random.below(out.len() as u64) as usize;
            out.swap(place, other);
        }
        10 => out.truncate(place),
        11 => out.push(likely_byte(random)),
        12 => digit_changed(random, &mut out, place),
        13 => line_changed(random, &mut out),
        14 => same_class(random, &mut out, place),
        _ => piece_repeated(random, &mut out, place),
    }
    out
}

/// Changes the next digit from a place on, or puts one there.
fn digit_changed(random: &mut Random, out: &mut Vec<u8>, place: usize) {
    let digit = *random.pick(b"0123456789");
    let next = out[place..].iter().position(u8::is_ascii_digit);
    match next {
        Some(offset) if random.one_in(2) => out[place + offset] = digit,
        Some(offset) => out.insert(place + offset, digit),
        None => out.insert(place, digit),
    }
}

/// Removes, doubles or moves a line feed, or takes a whole line out or twice in.
fn line_changed(random: &mut Random, out: &mut Vec<u8>) {
    let feeds: Vec<usize> = (0..out.len())
        .filter(|place| out[*place] == b'\n')
        .collect();
    if feeds.is_empty() {
        return out.push(b'\n');
    }
    let which = random.below(feeds.len() as u64) as usize;
    let feed = feeds[which];
    let start = if which == 0 { 0 } else { feeds[which - 1] + 1 };
    match random.below(6) {
        0 => {
            out.remove(feed);
        }
        1 => out.insert(feed, b'\n'),
        2 => out.insert(feed, b'\r'),
        3 => out.insert(feed, b' '),
        4 => {
            out.drain(start..=feed);
        }
        _ => {
            let line = out[start..=feed].to_vec();
            out.splice(start..start, line);
        }
    }
}

/// Changes a byte to another with the same upper half: a tag to another tag, a digit to another digit.
fn same_class(random: &mut Random, out: &mut [u8], place: usize) {
    out[place] = out[place] & 0xf0 | random.below(16) as u8;
}

/// Takes a short piece twice.
fn piece_repeated(random: &mut Random, out: &mut Vec<u8>, place: usize) {
    let end = (place + 1 + random.below(12) as usize).min(out.len());
    let piece = out[place..end].to_vec();
    out.splice(place..place, piece);
}
