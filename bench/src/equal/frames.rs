//! Random messages written, their frames read whole, cut, and with each bit turned; and random bytes.

use super::messages::{long_message, random_message, with_broken_entry, Lent};
use super::{reached, Tally};
use bench::fast::frame;
use ffi::FrameLibrary;
use frames::message::{to_server, KINDS};
use schedules::Random;

const MESSAGES: usize = 20_000;
/// With every so many messages comes a long one, and copies of it that one entry makes not writable.
const FOR_A_LONG_ONE: usize = 250;
/// More than any frame has.
const MOST_BYTES: usize = 2000;

#[rustfmt::skip]
const DUE: [&str; 14] = [
    "kind 1", "kind 2", "kind 3", "kind 4", "kind 5", "kind 6", "kind 7", "kind 8", "kind 9", "kind 10", "kind 11", "kind 12",
    "no 11", "no 12",
];

/// What was compared so far.
struct Frames {
    library: FrameLibrary,
    random: Random,
    written: Tally,
    read: Tally,
}

pub fn compare(library: FrameLibrary) {
    let mut frames = Frames { library, random: Random::new(7), written: Tally::default(), read: Tally::default() };
    for case in 0..MESSAGES {
        if case.is_multiple_of(FOR_A_LONG_ONE) {
            let long = long_message(&mut frames.random, case / FOR_A_LONG_ONE);
            frames.message(&long);
            for _ in 0..20 {
                let broken = with_broken_entry(&long, &mut frames.random);
                frames.message(&broken);
            }
        }
        let short = random_message(&mut frames.random);
        frames.message(&short);
        let bytes = random_bytes(&mut frames.random);
        frames.read(&bytes, [256; 3]);
    }
    reached("frames written", &frames.written, &DUE);
    reached("frames read", &frames.read, &[&DUE[..], &["no 10"]].concat());
}

impl Frames {
    /// Written with room enough and not; what was written is read in many ways.
    fn message(&mut self, message: &Lent) {
        let mut longest = vec![0x5A; MOST_BYTES];
        let Some(length) = self.write(message, &mut longest) else { return };
        for room in [0, length - 1, length, length + 1, length + 9] {
            self.write(message, &mut vec![0xFF; room]);
        }
        let (frame, entries) = (&longest[..length], message.fixed.entries as usize);
        self.read(frame, [entries; 3]);
        self.read(frame, [entries + 2, entries + 1, entries + 3]);
        for slice in 0..3 {
            let mut places = [entries; 3];
            places[slice] = entries.saturating_sub(1);
            self.read(frame, places);
        }
        for behind in [0, 1, 128, 255] {
            self.read(&[frame, &[behind]].concat(), [256; 3]);
        }
        for length in 0..frame.len() {
            self.read(&frame[..length], [256; 3]);
        }
        for bit in 0..8 * frame.len() {
            let mut damaged = frame.to_vec();
            damaged[bit / 8] ^= 1 << (bit % 8);
            self.read(&damaged, [256; 3]);
        }
    }

    fn write(&mut self, message: &Lent, bytes: &mut [u8]) -> Option<usize> {
        let Lent { fixed, keys, badges, numbers } = message;
        let mut proved = bytes.to_vec();
        let expected = self.library.number(fixed, keys, badges, numbers, &mut proved);
        assert_eq!(frame::write(fixed, keys, badges, numbers, bytes), expected, "writing {message:?}");
        assert_eq!(bytes, proved, "writing {message:?}");
        let refusal = u64::MAX - expected;
        self.written.count(&if refusal < 256 { format!("no {refusal}") } else { format!("kind {}", fixed.kind) });
        (refusal >= 256).then_some(expected as usize)
    }

    fn read(&mut self, bytes: &[u8], places: [usize; 3]) {
        const UNTOUCHED: u32 = 0xA5A5_5A5A;
        let (mut proved, mut fast) = ([[UNTOUCHED; 260]; 3], [[UNTOUCHED; 260]; 3]);
        let [keys, badges, numbers] = &mut proved;
        let [key_places, badge_places, number_places] = places;
        let lent = (&mut keys[..key_places], &mut badges[..badge_places], &mut numbers[..number_places]);
        let expected = self.library.parts(bytes, lent.0, lent.1, lent.2);
        let [keys, badges, numbers] = &mut fast;
        let lent = (&mut keys[..key_places], &mut badges[..badge_places], &mut numbers[..number_places]);
        let found = frame::read(bytes, lent.0, lent.1, lent.2);
        assert_eq!((found.head, found.tail), (expected.head, expected.tail), "reading {bytes:02x?}");
        assert!(fast == proved, "reading {bytes:02x?}");
        let refusal = u64::MAX - expected.head;
        self.read.count(&if refusal < 256 { format!("no {refusal}") } else { format!("kind {}", expected.head >> 56) });
    }
}

/// Bytes of which most are 0, behind a kind and a target that go together in most cases.
fn random_bytes(random: &mut Random) -> Vec<u8> {
    let most = random.pick(&[4, 5, 8, 40]);
    let length = random.below(most + 1);
    let one = |random: &mut Random| match random.below(4) {
        0 | 1 => 0,
        2 => 1 << random.below(8),
        _ => random.draw() as u8,
    };
    let mut bytes: Vec<u8> = (0..length).map(|_| one(random)).collect();
    if length >= 2 && random.chance(5, 6) {
        let kind = random.within(1, KINDS as usize) as u32;
        bytes[0] = (16 * kind) as u8 + random.below(16) as u8;
        let target = if to_server(kind) { random.below(16) as u8 } else { 16 };
        bytes[1] = 8 * target + bytes[1] % 8;
    }
    bytes
}
