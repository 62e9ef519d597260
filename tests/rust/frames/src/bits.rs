//! Fields of bits in bytes, "most significant bit first".

use model::Refusal;

/// Reads fields from the front of the bytes.
pub struct BitReader<'a> {
    bytes: &'a [u8],
    at: usize,
}

impl<'a> BitReader<'a> {
    pub fn new(bytes: &'a [u8]) -> Self {
        BitReader { bytes, at: 0 }
    }

    /// The next field; refused by 10 where the bytes end before it does.
    pub fn field(&mut self, width: usize) -> Result<u32, Refusal> {
        if self.at + width > 8 * self.bytes.len() {
            return Err(Refusal::CutShort);
        }
        let value = (self.at..self.at + width).fold(0, |value, at| value << 1 | self.bit(at));
        self.at += width;
        Ok(value)
    }

    fn bit(&self, at: usize) -> u32 {
        u32::from(self.bytes[at / 8] >> (7 - at % 8) & 1)
    }

    /// "padding not zero, bytes after it": 11. Only zero bits to the next byte may be left.
    pub fn finish(self) -> Result<(), Refusal> {
        let ends = self.at.div_ceil(8) == self.bytes.len();
        let padded = (self.at..8 * self.bytes.len()).all(|at| self.bit(at) == 0);
        if ends && padded {
            Ok(())
        } else {
            Err(Refusal::BadField)
        }
    }
}

/// Collects fields; "zero bits to the next byte" come of themselves.
#[derive(Default)]
pub struct BitWriter {
    bytes: Vec<u8>,
    used: usize,
}

impl BitWriter {
    /// Appends a field; refused by 11 where the value has more bits.
    pub fn field(&mut self, value: u32, width: usize) -> Result<(), Refusal> {
        if u64::from(value) >> width != 0 {
            return Err(Refusal::BadField);
        }
        for place in (0..width).rev() {
            self.bit(value >> place & 1 == 1);
        }
        Ok(())
    }

    fn bit(&mut self, set: bool) {
        if self.used.is_multiple_of(8) {
            self.bytes.push(0);
        }
        if set {
            self.bytes[self.used / 8] |= 1 << (7 - self.used % 8);
        }
        self.used += 1;
    }

    pub fn into_bytes(self) -> Vec<u8> {
        self.bytes
    }
}
