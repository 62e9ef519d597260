//! The frame reader and writer of crate `frames`.

use crate::{answered, Refused};

/// A handle that exists only where the library is linked.
#[derive(Clone, Copy, Debug)]
pub struct FrameLibrary(());

/// A message as it crosses; where it is refused, both are the refusal.
#[repr(C)]
#[derive(Clone, Copy, Debug, PartialEq, Eq)]
pub struct Parts {
    pub head: u64,
    pub tail: u64,
}

/// What is fixed in a message; what its kind lacks is 0. The number is the setpoint or the mask.
#[derive(Clone, Copy, Debug, Default, PartialEq, Eq)]
pub struct Fixed {
    pub kind: u32,
    pub client: u8,
    pub server: u8,
    pub tag: u8,
    /// Count and client.
    pub key: (u8, u8),
    pub badge: u16,
    pub number: u32,
    /// How many entries stand in the three slices beside it.
    pub entries: u32,
}

impl Parts {
    /// The message of what crossed.
    pub fn fixed(self) -> Result<Fixed, Refused> {
        let head = answered(self.head)?;
        // The badge is the lowest 16 bits; kind, client, server, tag, count and owner stand above it, to the base 256.
        let digit = |place: u32| (head >> (16 + 8 * place)) as u8;
        Ok(Fixed {
            kind: (head >> 56) as u32,
            client: digit(4),
            server: digit(3),
            tag: digit(2),
            key: (digit(1), digit(0)),
            badge: head as u16,
            number: self.tail as u32,
            entries: (self.tail >> 32) as u32,
        })
    }
}

impl FrameLibrary {
    pub fn linked() -> Option<FrameLibrary> {
        cfg!(frame_exports).then_some(FrameLibrary(()))
    }

    /// Reads a frame; its entries go to the front of the slices.
    #[inline(always)]
    pub fn read(self, bytes: &[u8], keys: &mut [u32], badges: &mut [u32], numbers: &mut [u32]) -> Parts {
        // The library was proved to stay within the slices that it is lent.
        unsafe { linked::read(bytes, keys, badges, numbers) }
    }

    /// Writes a message to the front of the bytes: its length, or a refusal, as a number that `answered` takes apart.
    #[inline(always)]
    pub fn write(self, fixed: &Fixed, keys: &[u32], badges: &[u32], numbers: &[u32], bytes: &mut [u8]) -> u64 {
        // As above.
        unsafe { linked::write(fixed, keys, badges, numbers, bytes) }
    }
}

#[cfg(not(frame_exports))]
mod linked {
    use super::{Fixed, Parts};

    pub unsafe fn read(_: &[u8], _: &mut [u32], _: &mut [u32], _: &mut [u32]) -> Parts {
        unreachable!("no handle without the library")
    }

    pub unsafe fn write(_: &Fixed, _: &[u32], _: &[u32], _: &[u32], _: &mut [u8]) -> u64 {
        unreachable!("no handle without the library")
    }
}

#[cfg(frame_exports)]
mod linked {
    use super::{Fixed, Parts};

    // tools/c-header compares these declarations with crates/frame_exports/src/lib.rt.
    #[rustfmt::skip]
    extern "C" {
        fn frame_read(
            bytes: *const u8, bytes_length: usize, keys: *mut u32, keys_length: usize,
            badges: *mut u32, badges_length: usize, numbers: *mut u32, numbers_length: usize,
        ) -> Parts;
        fn frame_write(
            kind: u32, client: u8, server: u8, tag: u8, count: u8, owner: u8, badge: u16, number: u32, entries: u32,
            keys: *const u32, keys_length: usize, badges: *const u32, badges_length: usize,
            numbers: *const u32, numbers_length: usize, bytes: *mut u8, bytes_length: usize,
        ) -> u64;
    }

    #[rustfmt::skip]
    pub unsafe fn read(bytes: &[u8], keys: &mut [u32], badges: &mut [u32], numbers: &mut [u32]) -> Parts {
        frame_read(
            bytes.as_ptr(), bytes.len(), keys.as_mut_ptr(), keys.len(),
            badges.as_mut_ptr(), badges.len(), numbers.as_mut_ptr(), numbers.len(),
        )
    }

    #[rustfmt::skip]
    pub unsafe fn write(fixed: &Fixed, keys: &[u32], badges: &[u32], numbers: &[u32], bytes: &mut [u8]) -> u64 {
        let Fixed { kind, client, server, key: (count, owner), badge, number, tag, entries } = *fixed;
        frame_write(
            kind, client, server, tag, count, owner, badge, number, entries,
            keys.as_ptr(), keys.len(), badges.as_ptr(), badges.len(),
            numbers.as_ptr(), numbers.len(), bytes.as_mut_ptr(), bytes.len(),
        )
    }
}
