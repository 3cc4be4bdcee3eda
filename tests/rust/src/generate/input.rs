//! A case as the program `check` reads it.

use crate::data::{Case, Time, LATEST};

/// The input that spells the case, if it can be spelled. Its pairs are left out: the program has no line for them.
pub fn input_of(case: &Case) -> Option<Vec<u8>> {
    if case.records.len() > 32 {
        return None;
    }
    let request = case.request;
    let mut text = format!(
        "who={}\nwhat={}\nright={}\ncerts={}\n",
        request.who,
        request.what,
        request.right,
        case.records.len()
    );
    let mut place = 0;
    for record in &case.records {
        if record.start != place {
            return None;
        }
        place = place.checked_add(record.length)?;
        let part = case.buffer.get(record.start as usize..place as usize)?;
        let (from, to) = (spelled(record.from)?, spelled(record.to)?);
        text += &format!("by={}\nfrom={from}\nto={to}\n", record.principal);
        text += &format!("says={}\n", hex(part));
    }
    text += &format!("proof={}\n", hex(&case.proof));
    let fits = place == case.buffer.len() as u64 && text.len() <= 65_536;
    fits.then(|| text.into_bytes())
}

/// A record's time as the input spells it, if it can.
fn spelled(time: Time) -> Option<String> {
    match time {
        Time::Moment(moment) if moment <= LATEST => Some(moment.to_string()),
        Time::MinusInfinity => Some("-".to_string()),
        Time::PlusInfinity => Some("+".to_string()),
        _ => None,
    }
}

/// Bytes in lower-case hex.
fn hex(bytes: &[u8]) -> String {
    bytes.iter().map(|byte| format!("{byte:02x}")).collect()
}
