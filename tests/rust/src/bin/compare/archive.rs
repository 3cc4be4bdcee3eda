//! The proved implementation, as the archive offers it: numbers and lent bytes.

use second_opinion::data::{Answer, Request};

/// What the archive gives back: an answer and the length of what it wrote.
#[derive(Clone, Copy, Debug, PartialEq, Eq)]
pub struct Returned {
    pub answer: Answer,
    pub length: u64,
}

impl Returned {
    /// An answer without a text.
    pub fn plain(answer: Answer) -> Returned {
        Returned { answer, length: 0 }
    }

    /// What the archive packs into one number.
    fn unpack(packed: u64) -> Returned {
        Returned {
            answer: Answer {
                number: packed >> 48,
                place: packed & 0xffff_ffff,
            },
            length: packed >> 32 & 0xffff,
        }
    }
}

#[link(name = "from_c", kind = "static")]
extern "C" {
    fn office_verify(
        who: u16,
        what: u16,
        right: u16,
        records: *const u8,
        records_length: usize,
        buffer: *const u8,
        buffer_length: usize,
        pairs: *const u8,
        pairs_length: usize,
        proof: *const u8,
        proof_length: usize,
        out: *mut u8,
        out_length: usize,
    ) -> u64;
    fn office_direct(
        who: u16,
        what: u16,
        right: u16,
        records: *const u8,
        records_length: usize,
        buffer: *const u8,
        buffer_length: usize,
        pairs: *const u8,
        pairs_length: usize,
        proof: *const u8,
        proof_length: usize,
        moment: u64,
        state: *const u8,
        state_length: usize,
    ) -> u64;
    fn office_answer_case(
        input: *const u8,
        input_length: usize,
        out: *mut u8,
        out_length: usize,
    ) -> u64;
    fn office_rewrite(text: *const u8, text_length: usize, out: *mut u8, out_length: usize) -> u64;
    fn office_write(value: *const u8, value_length: usize, out: *mut u8, out_length: usize) -> u64;
    fn desk_door_on_value(
        value: *const u8,
        value_length: usize,
        who: u16,
        what: u16,
        right: u16,
        moment: u64,
        state: *const u8,
        state_length: usize,
    ) -> u64;
    fn desk_presses(
        text: *const u8,
        text_length: usize,
        who: u16,
        what: u16,
        right: u16,
        moment: u64,
        state: *const u8,
        state_length: usize,
        presses: u64,
    ) -> u64;
}

#[link(name = "door", kind = "static")]
extern "C" {
    fn procap_door(
        text: *const u8,
        text_length: usize,
        who: u64,
        what: u64,
        right: u64,
        moment: u64,
        state: *const u8,
        state_length: usize,
    ) -> u64;
}

/// A case in the archive's bytes.
pub struct Case<'a> {
    pub request: Request,
    pub records: &'a [u8],
    pub buffer: &'a [u8],
    pub pairs: &'a [u8],
    pub proof: &'a [u8],
}

/// What verify answers, its text written into the lent buffer.
pub fn verify(case: &Case, out: &mut [u8]) -> Returned {
    let Request { who, what, right } = case.request;
    Returned::unpack(unsafe {
        office_verify(
            who,
            what,
            right,
            case.records.as_ptr(),
            case.records.len(),
            case.buffer.as_ptr(),
            case.buffer.len(),
            case.pairs.as_ptr(),
            case.pairs.len(),
            case.proof.as_ptr(),
            case.proof.len(),
            out.as_mut_ptr(),
            out.len(),
        )
    })
}

/// What the direct check answers.
pub fn direct(case: &Case, moment: u64, state: &[u8]) -> Returned {
    let Request { who, what, right } = case.request;
    Returned::unpack(unsafe {
        office_direct(
            who,
            what,
            right,
            case.records.as_ptr(),
            case.records.len(),
            case.buffer.as_ptr(),
            case.buffer.len(),
            case.pairs.as_ptr(),
            case.pairs.len(),
            case.proof.as_ptr(),
            case.proof.len(),
            moment,
            state.as_ptr(),
            state.len(),
        )
    })
}

/// What the program answers to an input, its printing put into the lent buffer.
pub fn answer_case(input: &[u8], out: &mut [u8]) -> Returned {
    Returned::unpack(unsafe {
        office_answer_case(input.as_ptr(), input.len(), out.as_mut_ptr(), out.len())
    })
}

/// What comes of reading a text and writing it again into the lent buffer.
pub fn rewrite(text: &[u8], out: &mut [u8]) -> Returned {
    Returned::unpack(unsafe {
        office_rewrite(text.as_ptr(), text.len(), out.as_mut_ptr(), out.len())
    })
}

/// What comes of writing a value's text into the lent buffer.
pub fn write(value: &[u8], out: &mut [u8]) -> Returned {
    Returned::unpack(unsafe {
        office_write(value.as_ptr(), value.len(), out.as_mut_ptr(), out.len())
    })
}

/// What the door answers to a value.
pub fn door_on_value(value: &[u8], request: Request, moment: u64, state: &[u8]) -> Returned {
    let Request { who, what, right } = request;
    Returned::unpack(unsafe {
        desk_door_on_value(
            value.as_ptr(),
            value.len(),
            who,
            what,
            right,
            moment,
            state.as_ptr(),
            state.len(),
        )
    })
}

/// How many of so many equal presses open to a text.
pub fn presses(text: &[u8], request: Request, moment: u64, state: &[u8], presses: u64) -> u64 {
    let Request { who, what, right } = request;
    unsafe {
        desk_presses(
            text.as_ptr(),
            text.len(),
            who,
            what,
            right,
            moment,
            state.as_ptr(),
            state.len(),
            presses,
        )
    }
}

/// What the desk's door answers to a text and three numbers that may be too great for a request.
pub fn door(text: &[u8], asked: [u64; 3], moment: u64, state: &[u8]) -> Answer {
    let [who, what, right] = asked;
    let packed = unsafe {
        procap_door(
            text.as_ptr(),
            text.len(),
            who,
            what,
            right,
            moment,
            state.as_ptr(),
            state.len(),
        )
    };
    Answer {
        number: packed >> 8,
        place: packed & 0xff,
    }
}
