//! Two recordings of one wire, compared by crate `recordings`.

use crate::Refused;

/// A handle that exists only where the library is linked.
#[derive(Clone, Copy, Debug)]
pub struct RecordingLibrary(());

/// The lengths of the frames, and their bytes end to end.
#[derive(Clone, Copy, Debug)]
pub struct Recording<'a> {
    pub lengths: &'a [u32],
    pub bytes: &'a [u8],
}

/// Two recordings agree, or differ first at a place, from 0, of a client's link to a target.
#[derive(Clone, Copy, Debug, PartialEq, Eq)]
pub enum Compared {
    Agree,
    Differ { client: u8, target: u8, place: u32 },
}

impl RecordingLibrary {
    pub fn linked() -> Option<RecordingLibrary> {
        cfg!(recording_exports).then_some(RecordingLibrary(()))
    }

    /// Compares two recordings.
    pub fn compare(self, one: Recording, other: Recording) -> Result<Compared, Refused> {
        compared(self.number(one, other))
    }

    /// The number as it crosses, for measurements.
    pub fn number(self, one: Recording, other: Recording) -> u64 {
        linked::compare(one, other)
    }
}

/// 0 agrees; what is above 2^32 differs, with the link, 256 times the client plus the target, above the 16 bits of the place; any other
/// number refuses.
pub fn compared(number: u64) -> Result<Compared, Refused> {
    if number == 0 {
        return Ok(Compared::Agree);
    }
    let Some(named) = number.checked_sub(1 << 32) else {
        return Err(Refused(number as u32));
    };
    let client = u8::try_from(named >> 24).unwrap_or_else(|_| panic!("{number} is no answer"));
    Ok(Compared::Differ { client, target: (named >> 16) as u8, place: named as u32 % (1 << 16) })
}

mod linked {
    use crate::recording::Recording;

    // tools/c-header compares this declaration with crates/recording_exports/src/lib.rt.
    #[cfg(recording_exports)]
    #[rustfmt::skip]
    extern "C" {
        fn recordings_compare(
            lengths: *const u32, lengths_length: usize, bytes: *const u8, bytes_length: usize,
            lengths2: *const u32, lengths2_length: usize, bytes2: *const u8, bytes2_length: usize,
        ) -> u64;
    }

    #[cfg(recording_exports)]
    pub fn compare(one: Recording, other: Recording) -> u64 {
        let (a, b) = (one.lengths, one.bytes);
        let (c, d) = (other.lengths, other.bytes);
        // The library was proved to stay within the slices that it is lent.
        unsafe { recordings_compare(a.as_ptr(), a.len(), b.as_ptr(), b.len(), c.as_ptr(), c.len(), d.as_ptr(), d.len()) }
    }

    #[cfg(not(recording_exports))]
    pub fn compare(_: Recording, _: Recording) -> u64 {
        unreachable!("no handle without the library")
    }
}
