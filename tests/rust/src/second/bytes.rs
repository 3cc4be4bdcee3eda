//! Lent bytes, read from front to back.

/// Lent bytes and how many of them have been read.
pub struct Bytes<'a> {
    bytes: &'a [u8],
    place: usize,
}

impl<'a> Bytes<'a> {
    /// These bytes, none of them read yet.
    pub fn of(bytes: &'a [u8]) -> Bytes<'a> {
        Bytes { bytes, place: 0 }
    }

    /// The offset of the byte that comes next.
    pub fn place(&self) -> usize {
        self.place
    }

    /// Whether every byte has been read.
    pub fn ended(&self) -> bool {
        self.place == self.bytes.len()
    }

    /// The next byte, if there is one.
    pub fn byte(&mut self) -> Option<u8> {
        let byte = *self.bytes.get(self.place)?;
        self.place += 1;
        Some(byte)
    }

    /// The next two bytes as a number, if there are two.
    pub fn pair(&mut self) -> Option<u16> {
        Some(u16::from_be_bytes([self.byte()?, self.byte()?]))
    }

    /// The next five bytes as a moment, if there are five.
    pub fn moment(&mut self) -> Option<u64> {
        let mut moment = 0;
        for _ in 0..5 {
            moment = moment << 8 | u64::from(self.byte()?);
        }
        Some(moment)
    }
}
