//! Frames through the proved reader and writer: messages of every kind, good and not writable; of every frame each prefix
//! and each single bit turned; random bytes; slices with places enough or too few.

use crate::arguments::Arguments;
use crate::messages::{long_message, random_message, with_broken_entry, Lent};
use crate::tally::Tally;
use crate::Report;
use ffi::FrameLibrary;
use frames::lent::{read_lent, write_lent, Fixed};
use frames::message::{to_server, KINDS};
use model::Refusal;
use schedules::Random;

/// A long message comes with every so many short ones: a frame of n bytes is read 9 n times, so few take most of the time.
const SHORT_FOR_A_LONG: usize = 500;
/// Copies of a long message with one entry broken, which are not writable.
const BROKEN_COPIES: usize = 20;
/// Places in the slices for keys, badges and numbers that hold the entries of any frame.
const ENOUGH: [usize; 3] = [256; 3];
/// Words that the lent slices hold before a call, so that a word written too far shows.
const UNTOUCHED: u32 = 0xA5A5_5A5A;

/// In a run of so many messages each of the outcomes below is to occur, and each kind is to be written and read.
const MANY: usize = 1000;
const DUE: [&str; 5] = ["not read by 10", "not read by 11", "not read by 12", "not written by 11", "not written by 12"];

struct Comparison {
    library: FrameLibrary,
    random: Random,
    tried: Tally,
    outcomes: Tally,
}

/// Writes `cases` short random messages and long ones between them, and reads what comes of them.
pub fn compare(arguments: &Arguments) -> Report {
    let library = FrameLibrary::linked().ok_or("libframe_exports.a is not linked: run tests/rust/build-store")?;
    let random = Random::new(arguments.seed);
    let mut comparison = Comparison { library, random, tried: Tally::default(), outcomes: Tally::default() };
    for case in 0..arguments.cases {
        if case.is_multiple_of(SHORT_FOR_A_LONG) {
            comparison.long_message(case / SHORT_FOR_A_LONG)?;
        }
        let message = random_message(&mut comparison.random);
        comparison.message(&message)?;
        comparison.random_bytes()?;
    }
    if arguments.cases >= MANY {
        comparison.outcomes.require(&DUE)?;
        for kind in 1..=KINDS {
            comparison.outcomes.require(&[&done("written", kind), &done("read", kind)])?;
        }
    }
    Ok(format!("{}; {}", comparison.tried, comparison.outcomes))
}

/// The name of an accepted outcome.
fn done(what: &str, kind: u32) -> String {
    format!("{what} of kind {kind}")
}

impl Comparison {
    /// A long message, and copies that are not writable.
    fn long_message(&mut self, place: usize) -> Result<(), String> {
        let message = long_message(&mut self.random, place);
        self.message(&message)?;
        for _ in 0..BROKEN_COPIES {
            let broken = with_broken_entry(&message, &mut self.random);
            self.message(&broken)?;
        }
        Ok(())
    }

    /// Writes a message; reads its frame, where it has one, whole and in every way damaged.
    fn message(&mut self, message: &Lent) -> Result<(), String> {
        self.tried.count("messages");
        let Some(frame) = self.write(message)? else {
            return Ok(());
        };
        self.tried.count(if message.is_long() { "long frames" } else { "short frames" });
        self.whole(&frame, message.fixed.entries as usize)?;
        self.prefixes(&frame)?;
        self.turned_bits(&frame)
    }

    /// The whole frame, with just the places that it needs, with more, with one too few; and with a byte behind it.
    fn whole(&mut self, frame: &[u8], entries: usize) -> Result<(), String> {
        self.read(frame, [entries; 3])?;
        self.read(frame, [entries + 2, entries + 1, entries + 3])?;
        // Only versions have badges; the others need no place for them.
        self.read(frame, [entries, 0, entries])?;
        if entries > 0 {
            for slice in 0..3 {
                let mut places = [entries; 3];
                places[slice] -= 1;
                self.read(frame, places)?;
            }
        }
        let behind = self.random.pick(&[0, 0, 1, 128, 255]);
        self.read(&[frame, &[behind]].concat(), ENOUGH)
    }

    /// Every prefix.
    fn prefixes(&mut self, frame: &[u8]) -> Result<(), String> {
        for length in 0..frame.len() {
            self.tried.count("prefixes");
            self.read(&frame[..length], ENOUGH)?;
        }
        Ok(())
    }

    /// Every single bit turned, and the same bytes cut short within the first fields.
    fn turned_bits(&mut self, frame: &[u8]) -> Result<(), String> {
        for bit in 0..8 * frame.len() {
            self.tried.count("single bits turned");
            let mut damaged = frame.to_vec();
            damaged[bit / 8] ^= 1 << (bit % 8);
            self.read(&damaged, ENOUGH)?;
            let length = self.random.below(damaged.len().min(8) + 1);
            self.read(&damaged[..length], ENOUGH)?;
        }
        Ok(())
    }

    /// Bytes behind a header that is good in most cases; many are 0 or have one bit, so that fields are at their edges.
    fn random_bytes(&mut self) -> Result<(), String> {
        self.tried.count("strings of random bytes");
        let most = self.random.pick(&[4, 5, 8, 40]);
        let length = self.random.below(most + 1);
        let mut bytes: Vec<u8> = (0..length).map(|_| sparse_byte(&mut self.random)).collect();
        if length >= 2 && self.random.chance(5, 6) {
            let kind = self.random.within(1, KINDS as usize) as u32;
            bytes[0] = (16 * kind) as u8 + self.random.below(16) as u8;
            let target = if to_server(kind) { self.random.below(16) as u8 } else { 16 };
            bytes[1] = 8 * target + bytes[1] % 8;
        }
        self.read(&bytes, ENOUGH)
    }

    /// Both readers on the same bytes: answers and slices are equal.
    fn read(&mut self, bytes: &[u8], places: [usize; 3]) -> Result<(), String> {
        let mut lent = places.map(|number| vec![UNTOUCHED; number]);
        let mut proved = lent.clone();
        let [keys, badges, numbers] = &mut lent;
        let expected = read_lent(bytes, keys, badges, numbers);
        let [keys, badges, numbers] = &mut proved;
        let found = self.library.read(bytes, keys, badges, numbers);
        if (found, &proved) != (expected, &lent) {
            return Err(format!("reading {bytes:02x?} with {places:?} places: {found:?}, the model {expected:?}"));
        }
        self.count("read", expected.map(|fixed: Fixed| fixed.kind));
        Ok(())
    }

    /// Both writers on the same message, with room for it or too little: its frame, where it has one.
    fn write(&mut self, message: &Lent) -> Result<Option<Vec<u8>>, String> {
        let mut longest = vec![0x5A; 2000];
        let Some(length) = self.write_with(message, &mut longest)? else {
            return Ok(None);
        };
        for room in [0, length - 1, length, length + 1] {
            self.write_with(message, &mut vec![0xFF; room])?;
        }
        longest.truncate(length);
        Ok(Some(longest))
    }

    /// Both writers on the same bytes: answers and bytes are equal.
    fn write_with(&mut self, message: &Lent, bytes: &mut [u8]) -> Result<Option<usize>, String> {
        let Lent { fixed, keys, badges, numbers } = message;
        let mut proved = bytes.to_vec();
        let expected = write_lent(fixed, keys, badges, numbers, bytes);
        let found = self.library.write(fixed, keys, badges, numbers, &mut proved);
        if found != expected || proved != bytes {
            return Err(format!("writing {message:?} to {} bytes: {found:?}, the model {expected:?}", bytes.len()));
        }
        self.count("written", expected.map(|_| fixed.kind));
        Ok(expected.ok())
    }

    fn count(&mut self, what: &str, outcome: Result<u32, Refusal>) {
        let name = match outcome {
            Ok(kind) => done(what, kind),
            Err(refusal) => format!("not {what} by {}", refusal as u8),
        };
        self.outcomes.count(&name);
    }
}

/// 0, one bit, or any byte.
fn sparse_byte(random: &mut Random) -> u8 {
    match random.below(4) {
        0 | 1 => 0,
        2 => 1 << random.below(8),
        _ => random.draw() as u8,
    }
}
