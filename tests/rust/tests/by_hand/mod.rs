//! What cases made by hand are made of. Each file of tests uses a part of it.
#![allow(dead_code)]

use second_opinion::data::{Answer, Case, Pair, Procap, Record, Request, Time, LATEST};
use second_opinion::second::{direct, door, verify, NoWatch};

/// The request of every case: 2 asks to use 7 by the right 9.
pub const REQUEST: Request = Request {
    who: 2,
    what: 7,
    right: 9,
};

/// That 2 may use 7 by the right 9.
pub const MAY: &str = "17006403000002000007000009";

/// An atom without terms.
pub const ATOM: &str = "17012c00";

/// Another atom without terms.
pub const OTHER: &str = "17012d00";

/// A third atom without terms.
pub const THIRD: &str = "17012e00";

/// From 1000 to 2000, and from 3000 to 4000.
pub const MARCH: &str = "0100000003e8 0100000007d0";
pub const JUNE: &str = "010000000bb8 010000000fa0";

/// The same.
pub const IN_MARCH: (Time, Time) = (Time::Moment(1000), Time::Moment(2000));
pub const IN_JUNE: (Time, Time) = (Time::Moment(3000), Time::Moment(4000));

/// Moments in, between and just beside them.
pub const MOMENTS: [u64; 16] = [
    0, 999, 1000, 1001, 1500, 1999, 2000, 2001, 2999, 3000, 3001, 3500, 3999, 4000, 4001, LATEST,
];

/// All time.
pub const EVER: (Time, Time) = (Time::MinusInfinity, Time::PlusInfinity);

/// Who says what, and on which interval.
pub type Said<'a> = (u16, (Time, Time), &'a str);

/// What verify says, told briefly: from and to of its procap, or number and place.
pub type Told = Result<(u64, u64), (u64, u64)>;

/// Issued for the whole clock.
pub const ALWAYS: Told = Ok((0, LATEST));

/// The bytes that hex digits spell, blanks left out.
pub fn bytes(hex: &str) -> Vec<u8> {
    let hex = hex.replace(' ', "");
    let digit = |place: usize| u8::from_str_radix(&hex[place..place + 2], 16).expect("hex");
    (0..hex.len()).step_by(2).map(digit).collect()
}

/// A case with these certificates.
pub fn case(said: &[Said], proof: &str) -> Case {
    let mut case = Case {
        request: REQUEST,
        records: Vec::new(),
        buffer: Vec::new(),
        pairs: Vec::new(),
        proof: bytes(proof),
    };
    for (principal, (from, to), formula) in said {
        let formula = bytes(formula);
        case.records.push(Record {
            principal: *principal,
            from: *from,
            to: *to,
            start: case.buffer.len() as u64,
            length: formula.len() as u64,
        });
        case.buffer.extend(formula);
    }
    case
}

/// The case with these pairs, the stronger of each first.
pub fn lending(pairs: &[(u16, u16)], case: Case) -> Case {
    let pairs = pairs
        .iter()
        .map(|&(stronger, weaker)| Pair { stronger, weaker });
    Case {
        pairs: pairs.collect(),
        ..case
    }
}

/// A case where 1 says these formulas for all time.
pub fn case_of_1(said: &[&str], proof: &str) -> Case {
    let said: Vec<Said> = said.iter().map(|formula| (1, EVER, *formula)).collect();
    case(&said, proof)
}

/// The proof that applies the first certificate at the press to what a step shows, which stands at offset 4.
pub fn by_rule(step: &str) -> String {
    format!("2a 26 2100 {step} 04 04")
}

/// What verify says where 1 says these formulas for all time; the direct check must say the same at every moment.
pub fn alike(said: &[&str], proof: &str) -> Told {
    let case = case_of_1(said, proof);
    let issued = verify(&case, &mut NoWatch);
    let answer = Answer::of(&issued);
    for moment in MOMENTS {
        assert_eq!(direct(&case, moment, &[], &mut NoWatch), answer);
    }
    briefly(issued)
}

/// From one moment to another.
pub fn on(from: u64, to: u64) -> (Time, Time) {
    (Time::Moment(from), Time::Moment(to))
}

/// What verify says to a case; in each of these states the direct check must accept just where the procap opens.
pub fn issued(case: &Case, states: &[&str]) -> Result<Procap, Answer> {
    let issued = verify(case, &mut NoWatch);
    for state in states.iter().map(|state| bytes(state)) {
        for moment in MOMENTS {
            let accepted = direct(case, moment, &state, &mut NoWatch) == Answer::GRANTED;
            let opened = |procap| door(procap, case.request, moment, &state) == Answer::GRANTED;
            assert_eq!(accepted, issued.as_ref().is_ok_and(opened), "at {moment}");
        }
    }
    issued
}

/// What verify says where these certificates are; the direct check must accept just where its procap opens.
pub fn told(said: &[Said], proof: &str) -> Told {
    told_by(&[], said, proof)
}

/// The same where these pairs are lent.
pub fn told_by(pairs: &[(u16, u16)], said: &[Said], proof: &str) -> Told {
    briefly(issued(&lending(pairs, case(said, proof)), &[""]))
}

/// What the direct check says where these certificates are.
pub fn pressed(said: &[Said], proof: &str, moment: u64) -> Answer {
    direct(&case(said, proof), moment, &[], &mut NoWatch)
}

/// What verify says, told briefly.
pub fn briefly(said: Result<Procap, Answer>) -> Told {
    match said {
        Ok(procap) => Ok((procap.from, procap.to)),
        Err(refusal) => Err((refusal.number, refusal.place)),
    }
}

/// The or of two formulas.
pub fn or(left: &str, right: &str) -> String {
    format!("1a {left} {right}")
}

/// The formula that a condition implies the "may".
pub fn if_so(condition: &str) -> String {
    format!("12 {condition} {MAY}")
}
