//! Lists of pairs: which of them came up, and lists that end within a pair or have more of them.

use super::both::both;
use crate::archive;
use crate::asking::Asking;
use crate::difference::Outcome;
use crate::wire::hex;
use crate::wire_pairs::{pairs_from_bytes, pairs_in_bytes, PAIR_BYTES};
use second_opinion::data::{Answer, Case, Procap};
use second_opinion::second::{self, NoWatch};

/// What must have come up about pairs, by the names under which it is counted.
pub const WHERE: [&str; 9] = [
    ISSUED_WITH_128,
    REFUSED_WITH_129,
    CUT_SHORT[0],
    CUT_SHORT[1],
    CUT_SHORT[2],
    ISSUED_BY_A_PART,
    DEMAND_3[0],
    DEMAND_3[1],
    DEMAND_3[2],
];

/// Issued with the most pairs, and refused with one more.
const ISSUED_WITH_128: &str = "issued with 128 pairs";
const REFUSED_WITH_129: &str = "refused with 129 pairs";

/// The last pair is there with one byte, with two, with three.
const CUT_SHORT: [&str; 3] = [
    "last pair of 1 byte",
    "last pair of 2 bytes",
    "last pair of 3 bytes",
];

/// Issued, and not without the last pair, of which not all bytes are there.
const ISSUED_BY_A_PART: &str = "issued by an incomplete last pair";

/// Demand 3 is asked with pairs, and with such lists of them.
const DEMAND_3: [&str; 3] = [
    "demand 3 with pairs",
    "demand 3 with an incomplete last pair",
    "demand 3 with too many pairs",
];

/// How many bytes of a list are shown where the answers differ: of one that is not too long, all.
const SHOWN: usize = 128 * PAIR_BYTES;

/// Counts what the pairs of a case are that verify has answered.
pub fn note(asking: &mut Asking, issued: &Result<Procap, Answer>) {
    let pairs = &asking.case.pairs;
    match (issued, pairs.len()) {
        (Ok(_), 128) => asking.coverage.asked(ISSUED_WITH_128),
        (Err(Answer { number: 21, .. }), 129) => asking.coverage.asked(REFUSED_WITH_129),
        _ => {}
    }
    let bytes = asking.pairs.len() % PAIR_BYTES;
    if bytes == 0 {
        return;
    }
    asking.coverage.asked(CUT_SHORT[bytes - 1]);
    let without = Case {
        pairs: pairs[..pairs.len() - 1].to_vec(),
        ..asking.case.clone()
    };
    if issued.is_ok() && second::verify(&without, &mut NoWatch).is_err() {
        asking.coverage.asked(ISSUED_BY_A_PART);
    }
}

/// Counts that demand 3 is asked with the pairs of a case.
pub fn note_demand_3(asking: &mut Asking) {
    match asking.case.pairs.len() {
        0 => {}
        1..=128 => asking.coverage.asked(DEMAND_3[0]),
        _ => asking.coverage.asked(DEMAND_3[2]),
    }
    if !asking.pairs.len().is_multiple_of(PAIR_BYTES) {
        asking.coverage.asked(DEMAND_3[1]);
    }
}

/// Asks about a longer list of pairs, now and then.
pub fn ask(asking: &mut Asking) -> Outcome {
    match asking.random.below(40) {
        0..=1 => with_a_tail(asking),
        2 => with_more(asking),
        _ => Ok(()),
    }
}

/// Asks about the case with some bytes after its last pair, which count as one pair more.
fn with_a_tail(asking: &mut Asking) -> Outcome {
    let mut bytes = pairs_in_bytes(&asking.case.pairs);
    let stronger = match asking.case.records.first() {
        Some(record) if asking.random.one_in(2) => record.principal,
        _ => asking.random.next() as u16,
    };
    let [high, low] = stronger.to_be_bytes();
    let tail = [high, low, asking.random.next() as u8];
    let length = 1 + asking.random.below(tail.len() as u64) as usize;
    bytes.extend(&tail[..length]);
    asking.coverage.asked("pairs with an incomplete tail");
    ask_both(asking, &bytes)
}

/// Asks about the case with its pairs repeated to as many as can be lent, or to a little or far more.
fn with_more(asking: &mut Asking) -> Outcome {
    let counts = [127, 128, 129, 130, 256, 257, 16_384, 16_385, 65_536];
    let count = *asking.random.pick(&counts);
    let mut bytes = pairs_in_bytes(&asking.case.pairs);
    if bytes.is_empty() {
        bytes.extend([0, 2, 0, 1]);
    }
    let own = bytes.clone();
    let more = own.iter().cycle().take(count * PAIR_BYTES);
    let bytes: Vec<u8> = more.copied().collect();
    asking.coverage.asked("more pairs than there were");
    ask_both(asking, &bytes)
}

/// Asks verify and the direct check about the case with these bytes for its pairs.
fn ask_both(asking: &mut Asking, bytes: &[u8]) -> Outcome {
    let moment = asking.random.below(3000);
    let case = Case {
        pairs: pairs_from_bytes(bytes),
        ..asking.case.clone()
    };
    let for_archive = archive::Case {
        pairs: bytes,
        ..asking.for_archive()
    };
    let (count, first) = (case.pairs.len(), &bytes[..bytes.len().min(SHOWN)]);
    let words = |what: &str| format!("{what} with {count} pairs, first {}", hex(first));
    both(&case, &for_archive, moment, words)
}
