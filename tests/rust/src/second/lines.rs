//! Lines with a label, and the numbers spelled on them.

/// Lent text, read line by line.
pub struct Lines<'a> {
    rest: &'a [u8],
    number: u64,
}

impl<'a> Lines<'a> {
    /// This text, no line of it read yet.
    pub fn of(text: &'a [u8]) -> Lines<'a> {
        Lines {
            rest: text,
            number: 0,
        }
    }

    /// The number of the line that was asked for last, the first one being 1.
    pub fn number(&self) -> u64 {
        self.number
    }

    /// What the next line spells after this label, if the line is whole and has the label.
    pub fn field<T>(
        &mut self,
        label: &[u8],
        read: impl FnOnce(&'a [u8]) -> Option<T>,
    ) -> Option<T> {
        self.number += 1;
        let end = self.rest.iter().position(|byte| *byte == b'\n')?;
        let (line, rest) = self.rest.split_at(end);
        self.rest = rest.get(1..)?;
        read(line.strip_prefix(label)?)
    }

    /// Something, if the text ends here; otherwise the line asked for last is the one too many.
    pub fn end(&mut self) -> Option<()> {
        self.number += 1;
        self.rest.is_empty().then_some(())
    }
}

/// The number spelled here, if it is spelled in the one way and is no greater than this.
pub fn decimal(spelled: &[u8], most: u64) -> Option<u64> {
    if spelled.is_empty() || (spelled.len() > 1 && spelled[0] == b'0') {
        return None;
    }
    let mut number: u64 = 0;
    for digit in spelled {
        if !digit.is_ascii_digit() {
            return None;
        }
        let value = u64::from(digit - b'0');
        number = number.checked_mul(10)?.checked_add(value)?;
    }
    (number <= most).then_some(number)
}

/// The name, predicate or part of a request spelled here, if there is one.
pub fn two_byte_number(spelled: &[u8]) -> Option<u16> {
    let number = decimal(spelled, u64::from(u16::MAX))?;
    u16::try_from(number).ok()
}
