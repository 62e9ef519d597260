//! Frames of each kind, written and read, with their entries in lent slices on every side: the proved crate beside the independent
//! Rust, and beside a codec that was written for speed.

use crate::clock::{beside, least_of_passes};
use crate::goals;
use crate::table::{print, ratio, thousands, time};
use bench::fast::frame as fast;
use ffi::frame::{answer, taken_apart, Parts};
use ffi::FrameLibrary;
use frames::lent::{read_lent, write_lent, Fixed};
use frames::message::to_server;
use model::Refusal;

/// More than any frame has.
pub const MOST_BYTES: usize = 2000;
/// Each kind, those with a list of entries with few and with the most.
pub const FRAMES: [(u32, u32); 17] = [
    (1, 0),
    (2, 0),
    (3, 0),
    (4, 0),
    (5, 0),
    (6, 1),
    (6, 16),
    (7, 0),
    (8, 0),
    (9, 0),
    (10, 1),
    (10, 16),
    (10, 256),
    (11, 0),
    (12, 1),
    (12, 16),
    (12, 256),
];

/// A side that is measured. What it answers is taken apart outside of the measurement.
pub trait Codec: Copy {
    const NAME: &'static str;
    type Written;
    type Read;
    fn write(self, fixed: &Fixed, keys: &[u32], badges: &[u32], numbers: &[u32], bytes: &mut [u8]) -> Self::Written;
    fn read(self, bytes: &[u8], keys: &mut [u32], badges: &mut [u32], numbers: &mut [u32]) -> Self::Read;
    fn length(written: Self::Written) -> Option<usize>;
    fn message(read: Self::Read) -> Option<Fixed>;
}

/// The independent implementation.
#[derive(Clone, Copy)]
pub struct Rust;

impl Codec for Rust {
    const NAME: &'static str = "Rust";
    type Written = Result<usize, Refusal>;
    type Read = Result<Fixed, Refusal>;

    fn write(self, fixed: &Fixed, keys: &[u32], badges: &[u32], numbers: &[u32], bytes: &mut [u8]) -> Self::Written {
        write_lent(fixed, keys, badges, numbers, bytes)
    }

    fn read(self, bytes: &[u8], keys: &mut [u32], badges: &mut [u32], numbers: &mut [u32]) -> Self::Read {
        read_lent(bytes, keys, badges, numbers)
    }

    fn length(written: Self::Written) -> Option<usize> {
        written.ok()
    }

    fn message(read: Self::Read) -> Option<Fixed> {
        read.ok()
    }
}

/// The codec that was written for speed.
#[derive(Clone, Copy)]
pub struct Fast;

impl Codec for Fast {
    const NAME: &'static str = "fast";
    type Written = u64;
    type Read = Parts;

    fn write(self, fixed: &Fixed, keys: &[u32], badges: &[u32], numbers: &[u32], bytes: &mut [u8]) -> u64 {
        fast::write(fixed, keys, badges, numbers, bytes)
    }

    fn read(self, bytes: &[u8], keys: &mut [u32], badges: &mut [u32], numbers: &mut [u32]) -> Parts {
        fast::read(bytes, keys, badges, numbers)
    }

    fn length(written: u64) -> Option<usize> {
        answer(written).ok().map(|length| length as usize)
    }

    fn message(read: Parts) -> Option<Fixed> {
        taken_apart(read).ok()
    }
}

impl Codec for FrameLibrary {
    const NAME: &'static str = "proved";
    type Written = u64;
    type Read = Parts;

    fn write(self, fixed: &Fixed, keys: &[u32], badges: &[u32], numbers: &[u32], bytes: &mut [u8]) -> u64 {
        self.number(fixed, keys, badges, numbers, bytes)
    }

    fn read(self, bytes: &[u8], keys: &mut [u32], badges: &mut [u32], numbers: &mut [u32]) -> Parts {
        self.parts(bytes, keys, badges, numbers)
    }

    fn length(written: u64) -> Option<usize> {
        answer(written).ok().map(|length| length as usize)
    }

    fn message(read: Parts) -> Option<Fixed> {
        taken_apart(read).ok()
    }
}

pub fn report(library: FrameLibrary) {
    let a_second = |nanoseconds: f64| thousands(1e9 / nanoseconds);
    table("Frames", library, Rust, "written a second", "read a second", a_second, |_| 3.0);
    table("Frames, beside a codec written for speed", library, Fast, "written, ns", "read, ns", time, goals::of_frame);
}

/// A row for each frame; `said` is how a time is printed.
fn table<C: Codec>(
    title: &str,
    library: FrameLibrary,
    other: C,
    written: &str,
    read: &str,
    said: impl Fn(f64) -> String,
    goal: impl Fn(u32) -> f64,
) {
    let of = |name: &str, what: &str| format!("{name}, {what}");
    let heads: Vec<String> = ["kind", "entries", "bytes"]
        .map(String::from)
        .into_iter()
        .chain([written, read].iter().flat_map(|what| [of(FrameLibrary::NAME, what), of(C::NAME, what), "ratio".into()]))
        .collect();
    let heads: Vec<&str> = heads.iter().map(String::as_str).collect();
    let times = least_of_passes(&FRAMES, |&(kind, entries)| one_kind(library, other, kind, entries));
    let row = |(&(kind, entries), [written, other_written, read, other_read]): (&(u32, u32), [f64; 4])| {
        let length = Lent::of(library, kind, entries).frame.len();
        vec![
            kind.to_string(),
            entries.to_string(),
            thousands(length as f64),
            said(written),
            said(other_written),
            ratio(written, other_written, goal(entries)),
            said(read),
            said(other_read),
            ratio(read, other_read, goal(entries)),
        ]
    };
    let rows: Vec<Vec<String>> = FRAMES.iter().zip(times).map(row).collect();
    print(title, &heads, &rows);
}

/// A message, its entries in slices, and its frame.
pub struct Lent {
    pub fixed: Fixed,
    pub keys: Vec<u32>,
    pub badges: Vec<u32>,
    pub numbers: Vec<u32>,
    pub frame: Vec<u8>,
}

impl Lent {
    pub fn of(library: FrameLibrary, kind: u32, entries: u32) -> Lent {
        let fixed = message(kind, entries);
        let [keys, badges, numbers] = entries_beside(kind, entries);
        let mut frame = vec![0; MOST_BYTES];
        let length = library.write(&fixed, &keys, &badges, &numbers, &mut frame).expect("a good message");
        frame.truncate(length);
        Lent { fixed, keys, badges, numbers, frame }
    }
}

/// Nanoseconds: written by the proved crate and by the other side, and read by both.
fn one_kind<C: Codec>(library: FrameLibrary, other: C, kind: u32, entries: u32) -> [f64; 4] {
    let Lent { fixed, keys, badges, numbers, frame } = Lent::of(library, kind, entries);
    let [mut keys_read, mut badges_read, mut numbers_read] = places();
    let [mut other_keys, mut other_badges, mut other_numbers] = places();
    let message = C::message(other.read(&frame, &mut other_keys, &mut other_badges, &mut other_numbers));
    assert_eq!(message, Some(fixed));
    assert_eq!(library.read(&frame, &mut keys_read, &mut badges_read, &mut numbers_read), Ok(fixed));
    let (mut bytes, mut other_bytes) = (vec![0; MOST_BYTES], vec![0; MOST_BYTES]);
    assert_eq!(C::length(other.write(&fixed, &keys, &badges, &numbers, &mut other_bytes)), Some(frame.len()));
    assert_eq!(other_bytes[..frame.len()], frame);

    let other_write = || other.write(&fixed, &keys, &badges, &numbers, &mut other_bytes);
    let (written, other_written) = beside(|| library.number(&fixed, &keys, &badges, &numbers, &mut bytes), other_write);
    let other_reading = || other.read(&frame, &mut other_keys, &mut other_badges, &mut other_numbers);
    let reading = || library.parts(&frame, &mut keys_read, &mut badges_read, &mut numbers_read);
    let (read, other_read) = beside(reading, other_reading);
    [written, other_written, read, other_read]
}

/// Places for the entries of any frame: keys, badges and numbers.
pub fn places() -> [Vec<u32>; 3] {
    [(); 3].map(|_| vec![0; 256])
}

/// Entries of the kind, as key words, badges and numbers; only versions have badges.
pub fn entries_beside(kind: u32, entries: u32) -> [Vec<u32>; 3] {
    let most = if kind == 6 { 255 } else { 65535 };
    let badges = if kind == 10 { entries } else { 0 };
    [
        (0..entries).map(|entry| 256 * (1 + entry % 255) + entry % 16).collect(),
        (0..badges).map(|entry| 65535 - entry * 257).collect(),
        (0..entries).map(|entry| 1 + entry * 251 % most).collect(),
    ]
}

/// A good message of the kind.
pub fn message(kind: u32, entries: u32) -> Fixed {
    let mut fixed = Fixed { kind, client: 9, entries, ..Fixed::default() };
    if to_server(kind) {
        fixed.server = 13;
    }
    match kind {
        1 => (fixed.key, fixed.badge, fixed.number) = ((200, 9), 40_961, 51_234),
        3 => (fixed.key, fixed.number) = ((200, 9), 51_234),
        4 | 6 => fixed.tag = 77,
        7 => fixed.key = (200, 3),
        8 => (fixed.badge, fixed.number) = (40_961, 3_000_000_000),
        _ => {}
    }
    fixed
}

#[cfg(test)]
mod tests {
    use super::*;
    use bench::fast::frame::{read, write};

    /// Writes and reads as the independent codec does: each frame that is measured, each of its prefixes, each of its bits turned; and with
    /// a place too few in each slice.
    #[test]
    fn as_the_independent_codec() {
        for (kind, entries) in FRAMES {
            let (fixed, [keys, badges, numbers]) = (message(kind, entries), entries_beside(kind, entries));
            let (mut bytes, mut other) = (vec![0xA5; MOST_BYTES], vec![0xA5; MOST_BYTES]);
            let length = write_lent(&fixed, &keys, &badges, &numbers, &mut other).expect("a good message");
            assert_eq!(answer(write(&fixed, &keys, &badges, &numbers, &mut bytes)), Ok(length as u64));
            assert_eq!(bytes, other);
            let frame = &bytes[..length];
            (0..length).for_each(|cut| alike(&frame[..cut]));
            alike(frame);
            for slice in 0..3 {
                let mut places = [entries as usize; 3];
                places[slice] = places[slice].saturating_sub(1);
                alike_with(frame, places);
                let short = [&keys, &badges, &numbers].map(|words| &words[..words.len().saturating_sub(1)]);
                let mut lent = [&keys[..], &badges, &numbers];
                lent[slice] = short[slice];
                let [keys, badges, numbers] = lent;
                let expected = write_lent(&fixed, keys, badges, numbers, &mut other).map(|length| length as u64);
                assert_eq!(answer(write(&fixed, keys, badges, numbers, &mut vec![0; MOST_BYTES])), expected);
            }
            for bit in 0..8 * length {
                let mut turned = frame.to_vec();
                turned[bit / 8] ^= 128 >> (bit % 8);
                alike(&turned);
            }
        }
    }

    fn alike(bytes: &[u8]) {
        alike_with(bytes, [256; 3]);
    }

    fn alike_with(bytes: &[u8], places: [usize; 3]) {
        let mut lent = places.map(|number| vec![7; number]);
        let mut other = lent.clone();
        let [keys, badges, numbers] = &mut lent;
        let message = taken_apart(read(bytes, keys, badges, numbers));
        let [keys, badges, numbers] = &mut other;
        assert_eq!(message, read_lent(bytes, keys, badges, numbers));
        assert_eq!(lent, other);
    }
}
