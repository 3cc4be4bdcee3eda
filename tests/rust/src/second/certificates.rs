//! The certificates of a case, read out of its buffer.

use super::clauses::Watch;
use super::judging::Judgement;
use super::spelling::read_formula;
use super::times::{in_range, Interval};
use crate::data::{Answer, Record, Time};

/// How many records a case has at most.
const MOST_RECORDS: usize = 32;

/// How long a certificate's part can be.
const MOST_PART_BYTES: u64 = 256;

/// Who says what, and for how long.
pub struct Certificate {
    pub principal: u16,
    pub judgement: Judgement,
}

/// All certificates, or which of them is the first malformed one.
pub fn read_certificates<W: Watch>(
    records: &[Record],
    buffer: &[u8],
    watch: &mut W,
) -> Result<Vec<Certificate>, Answer> {
    if records.len() > MOST_RECORDS {
        return Err(Answer::refused(1, 0));
    }
    let mut certificates = Vec::with_capacity(records.len());
    for (index, record) in (0..).zip(records) {
        let certificate = read_certificate(record, buffer, watch);
        certificates.push(certificate.ok_or(Answer::refused(1, index))?);
    }
    Ok(certificates)
}

/// The certificate of a record, if it is well formed.
fn read_certificate<W: Watch>(
    record: &Record,
    buffer: &[u8],
    watch: &mut W,
) -> Option<Certificate> {
    let interval = Interval {
        from: record.from,
        to: record.to,
    };
    if !may_stand(record.from) || !may_stand(record.to) {
        return None;
    }
    let formula = read_formula(part(record, buffer)?, watch)?;
    Some(Certificate {
        principal: record.principal,
        judgement: Judgement { formula, interval },
    })
}

/// Whether a time may stand in a record.
fn may_stand(time: Time) -> bool {
    time != Time::Ctime && in_range(time)
}

/// The part of the buffer that a record names, if it is there and short enough.
fn part<'a>(record: &Record, buffer: &'a [u8]) -> Option<&'a [u8]> {
    if record.length > MOST_PART_BYTES {
        return None;
    }
    let end = record.start.checked_add(record.length)?;
    let start = usize::try_from(record.start).ok()?;
    buffer.get(start..usize::try_from(end).ok()?)
}
