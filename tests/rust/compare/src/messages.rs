//! Random messages as they are lent to a writer: good ones, and ones that no frame holds.

use frames::lent::{write_lent, Fixed};
use frames::message::{to_server, HEAD, KINDS, MOST_ENTRIES, MOST_KEYS};
use schedules::{badge, Random};

/// Most entries of a message that is not a long one.
const SHORT: usize = 24;
/// More than any frame has.
const MOST_BYTES: usize = 2000;

/// The fixed part of a message and its entries: key words, badges of versions, and tags, setpoints or masks.
#[derive(Clone, Debug)]
pub struct Lent {
    pub fixed: Fixed,
    pub keys: Vec<u32>,
    pub badges: Vec<u32>,
    pub numbers: Vec<u32>,
}

impl Lent {
    pub fn is_long(&self) -> bool {
        self.fixed.entries as usize > SHORT
    }

    /// The frame of a good message.
    pub fn frame(&self) -> Vec<u8> {
        let mut bytes = vec![0; MOST_BYTES];
        let length = write_lent(&self.fixed, &self.keys, &self.badges, &self.numbers, &mut bytes).expect("a good message");
        bytes.truncate(length);
        bytes
    }
}

/// A short message of any kind: most are good; some have one value that no field takes, or entries too few or too many.
pub fn random_message(random: &mut Random) -> Lent {
    let kind = random.within(1, KINDS as usize) as u32;
    let entries = most_of(kind).map_or(0, |most| random.within(1, most));
    let mut message = good_message(random, kind, entries);
    if random.chance(1, 4) {
        spoil(random, &mut message);
    }
    message
}

/// Long messages in turn, all versions (kind 10) and logs (kind 12): from the longest down in steps of 37 entries, and around,
/// so that no length comes again before all have been.
pub fn long_message(random: &mut Random, place: usize) -> Lent {
    let kind = if place.is_multiple_of(2) { 10 } else { 12 };
    let entries = MOST_ENTRIES - 37 * (place / 2) % (MOST_ENTRIES - SHORT);
    good_message(random, kind, entries)
}

/// A message of kind 10 or 12 that is not writable for one of its entries, at any place: a key that is none or, in a log, a mask, of
/// versions a badge.
pub fn with_broken_entry(message: &Lent, random: &mut Random) -> Lent {
    let mut broken = message.clone();
    let place = random.below(broken.keys.len());
    if message.fixed.kind == 12 && random.chance(1, 2) {
        broken.numbers[place] = random.pick(&[0, 65536, u32::MAX]);
    } else if message.fixed.kind == 10 && random.chance(1, 2) {
        broken.badges[place] = random.pick(&[65536, 65537, 65543, 1 << 31, u32::MAX]);
    } else {
        broken.keys[place] = broken_key(random);
    }
    broken
}

/// A good message of a link, with as many entries as a short one has at most.
pub fn message_of_link(random: &mut Random, client: u8, target: u8) -> Lent {
    let to_servers = u32::from(target) < HEAD;
    let kinds: Vec<u32> = (1..=KINDS).filter(|&kind| to_server(kind) == to_servers).collect();
    let kind = random.pick(&kinds);
    let entries = most_of(kind).map_or(0, |most| random.within(1, most));
    let server = if to_servers { target } else { 0 };
    good_message_of(random, Fixed { kind, client, server, entries: entries as u32, ..Fixed::default() })
}

/// The most entries of a short message of a kind; none where the kind has no entries.
fn most_of(kind: u32) -> Option<usize> {
    match kind {
        6 => Some(MOST_KEYS),
        10 | 12 => Some(SHORT),
        _ => None,
    }
}

/// A message whose values are all in their ranges, often at an end.
fn good_message(random: &mut Random, kind: u32, entries: usize) -> Lent {
    let client = random.below(16) as u8;
    let server = if to_server(kind) { random.below(16) as u8 } else { 0 };
    good_message_of(random, Fixed { kind, client, server, entries: entries as u32, ..Fixed::default() })
}

/// The same of a kind, a link and a number of entries.
pub fn good_message_of(random: &mut Random, mut fixed: Fixed) -> Lent {
    let (kind, entries) = (fixed.kind, fixed.entries as usize);
    let count = if random.chance(1, 2) { 1 << random.below(8) } else { random.within(1, 255) as u8 };
    match kind {
        1 => (fixed.key, fixed.badge, fixed.number) = ((count, fixed.client), badge(random), random.word()),
        3 => (fixed.key, fixed.number) = ((count, fixed.client), random_mask(random)),
        4 => fixed.tag = random.within(1, 255) as u8,
        6 => fixed.tag = random.below(256) as u8,
        7 => fixed.key = random.pick(&[(0, 0), (count, 3), (255, 15)]),
        8 => (fixed.badge, fixed.number) = (badge(random), random.word()),
        _ => {}
    }
    let number = match kind {
        6 => random_tag,
        10 => Random::word,
        _ => random_mask,
    };
    let keys = (0..entries).map(|_| random_key(random)).collect();
    // Kinds without badges are lent none, or any words, which they do not look at.
    let badges = match kind {
        10 => (0..entries).map(|_| u32::from(badge(random))).collect(),
        _ => (0..random.below(3)).map(|_| random.word()).collect(),
    };
    let numbers = (0..entries).map(|_| number(random)).collect();
    Lent { fixed, keys, badges, numbers }
}

/// A tag of eight bits, often at an end.
fn random_tag(random: &mut Random) -> u32 {
    match random.below(2) {
        0 => random.pick(&[0, 1, 254, 255]),
        _ => random.below(256) as u32,
    }
}

/// A mask of at least one server, often of one alone.
fn random_mask(random: &mut Random) -> u32 {
    match random.below(2) {
        0 => 1 << random.below(16),
        _ => random.within(1, 65535) as u32,
    }
}

fn random_key(random: &mut Random) -> u32 {
    match random.below(5) {
        0 => 0,
        _ => 256 * random.within(1, 255) as u32 + random.below(16) as u32,
    }
}

/// A word that is no key: its client above 15 or beside count 0, or its count above 255.
fn broken_key(random: &mut Random) -> u32 {
    random.pick(&[1, 15, 16, 255, 256 + 16, 65535, 65536, 65536 + 256, u32::MAX])
}

/// Makes one value odd; the kind may not have it, and then nothing is spoilt.
fn spoil(random: &mut Random, message: &mut Lent) {
    let Lent { fixed, keys, badges, numbers } = message;
    match random.below(13) {
        0 => fixed.client = random.pick(&[15, 16, 17, 255]),
        1 => fixed.server = random.pick(&[15, 16, 17, 31, 32, 255]),
        2 if matches!(fixed.kind, 1 | 3 | 7) => fixed.key = random.pick(&[(0, 0), (0, 1), (1, 16), (255, 255), (1, 0)]),
        3 if fixed.kind == 3 => fixed.number = random.pick(&[0, 65535, 65536, u32::MAX]),
        4 if fixed.kind == 4 => fixed.tag = 0,
        5 if fixed.entries > 0 => {
            fixed.entries = random.pick(&[0, 16, 17, 257, 300, u32::MAX]);
            if random.chance(1, 2) {
                // Places enough, so that the number of entries alone decides.
                keys.resize(300, 256);
                badges.resize(300, 7);
                numbers.resize(300, 1);
            }
        }
        6 => {
            keys.pop();
        }
        7 => {
            numbers.pop();
        }
        8 => {
            badges.pop();
        }
        9 if fixed.kind == 10 => {
            let place = random.below(badges.len());
            badges[place] = random.pick(&[65535, 65536, 65543, 131_072, u32::MAX]);
        }
        // Kinds that have no badge look at none.
        10 => fixed.badge = badge(random),
        11 => fixed.kind = random.pick(&[0, 13, 14, 16, 255, 256 + 1, u32::MAX]),
        _ if !keys.is_empty() => {
            let place = random.below(keys.len());
            match numbers.get_mut(place) {
                Some(number) if random.chance(1, 2) => *number = random.pick(&[0, 1, 255, 256, 65535, 65536, u32::MAX]),
                _ => keys[place] = broken_key(random),
            }
        }
        _ => {}
    }
}
