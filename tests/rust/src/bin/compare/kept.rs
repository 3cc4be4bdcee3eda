//! The demands as the archive offers them: calls that are proved to answer yes.

use crate::archive::Case;
use second_opinion::data::Request;

#[link(name = "kept", kind = "static")]
extern "C" {
    fn kept_demand_3(
        who: u16,
        what: u16,
        right: u16,
        records: *const u8,
        records_length: usize,
        buffer: *const u8,
        buffer_length: usize,
        pairs: *const u8,
        pairs_length: usize,
        proof: *const u8,
        proof_length: usize,
        moment: u64,
        state: *const u8,
        state_length: usize,
    ) -> bool;
    fn kept_demand_2_reading(text: *const u8, text_length: usize) -> bool;
    fn kept_demand_2_writing(value: *const u8, value_length: usize) -> bool;
}

/// Whether verify, the direct check and the door answer as demand 3 says at a press.
pub fn demand_3(case: &Case, moment: u64, state: &[u8]) -> bool {
    let Request { who, what, right } = case.request;
    unsafe {
        kept_demand_3(
            who,
            what,
            right,
            case.records.as_ptr(),
            case.records.len(),
            case.buffer.as_ptr(),
            case.buffer.len(),
            case.pairs.as_ptr(),
            case.pairs.len(),
            case.proof.as_ptr(),
            case.proof.len(),
            moment,
            state.as_ptr(),
            state.len(),
        )
    }
}

/// Whether bytes that read as a procap are what is written of it.
pub fn demand_2_reading(text: &[u8]) -> bool {
    unsafe { kept_demand_2_reading(text.as_ptr(), text.len()) }
}

/// Whether what is written of a value reads back, and is written again as it was.
pub fn demand_2_writing(value: &[u8]) -> bool {
    unsafe { kept_demand_2_writing(value.as_ptr(), value.len()) }
}
