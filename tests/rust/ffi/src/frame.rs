//! The frame reader and writer of crate `frames`.

use crate::refusal;
use frames::lent::Fixed;
use model::Refusal;
pub use setpoint_store::Parts;

/// A handle that exists only where the library is linked.
#[derive(Clone, Copy, Debug)]
pub struct FrameLibrary(setpoint_store::FrameLibrary);

impl FrameLibrary {
    pub fn linked() -> Option<FrameLibrary> {
        setpoint_store::FrameLibrary::linked().map(FrameLibrary)
    }

    /// Reads a frame; its entries go to the front of the slices.
    pub fn read(self, bytes: &[u8], keys: &mut [u32], badges: &mut [u32], numbers: &mut [u32]) -> Result<Fixed, Refusal> {
        taken_apart(self.parts(bytes, keys, badges, numbers))
    }

    /// Writes a message to the front of the bytes: its length.
    pub fn write(self, fixed: &Fixed, keys: &[u32], badges: &[u32], numbers: &[u32], bytes: &mut [u8]) -> Result<usize, Refusal> {
        answer(self.number(fixed, keys, badges, numbers, bytes)).map(|length| length as usize)
    }

    /// Reads a frame: the numbers as they cross, for measurements.
    #[inline]
    pub fn parts(self, bytes: &[u8], keys: &mut [u32], badges: &mut [u32], numbers: &mut [u32]) -> Parts {
        self.0.read(bytes, keys, badges, numbers)
    }

    /// Writes a message: the number as it crosses, for measurements.
    #[inline]
    pub fn number(self, fixed: &Fixed, keys: &[u32], badges: &[u32], numbers: &[u32], bytes: &mut [u8]) -> u64 {
        let Fixed { kind, client, server, key, badge, number, tag, entries } = *fixed;
        let fixed = setpoint_store::Fixed { kind, client, server, tag, key, badge, number, entries };
        self.0.write(&fixed, keys, badges, numbers, bytes)
    }
}

/// A refusal is 2^64 - 1 less its number; any other number is the answer.
pub fn answer(number: u64) -> Result<u64, Refusal> {
    setpoint_store::answered(number).map_err(refusal)
}

/// The message of what crossed.
pub fn taken_apart(parts: Parts) -> Result<Fixed, Refusal> {
    assert_eq!(answer(parts.tail).err(), answer(parts.head).err(), "where it is refused, both are the refusal");
    let setpoint_store::Fixed { kind, client, server, tag, key, badge, number, entries } = parts.fixed().map_err(refusal)?;
    Ok(Fixed { kind, client, server, key, badge, number, tag, entries })
}
