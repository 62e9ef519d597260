//! Pairs of recordings: equal ones, frames crossed, swapped, missing and changed, faults of every kind, full ones and empty ones.

use crate::messages::{good_message_of, message_of_link};
use frames::lent::Fixed;
use frames::message::HEAD;
use frames::recording::{Compared, Recording, MOST_FRAMES};
use model::Refusal;
use schedules::Random;

pub type Answer = Result<Compared, Refusal>;

/// What is known of a pair's answer by how it was made.
#[derive(Clone, Copy, Debug)]
pub enum Known {
    Exactly(Answer),
    NotAgree,
    Nothing,
}

pub struct Pair {
    pub name: &'static str,
    pub one: Recording,
    pub other: Recording,
    pub known: Known,
}

type Frames = Vec<Vec<u8>>;
type Made = (Recording, Recording, Known);
type Making = fn(Frames, &mut Random) -> Made;

const AGREE: Known = Known::Exactly(Ok(Compared::Agree));
const REFUSED: Known = Known::Exactly(Err(Refusal::BadRecording));

/// Pairs by what is odd in them, each made of frames of which there is one at least.
const KINDS: [(&str, Making); 20] = [
    ("equal", equal),
    ("crossed", crossed_links),
    ("swapped on one link", swapped),
    ("missing at the end", missing_at_the_end),
    ("missing in the middle", missing),
    ("one bit turned", one_bit),
    ("with several differences", several),
    ("of nothing alike", unlike),
    ("with one empty", one_empty),
    ("with both empty", both_empty),
    ("a length changed", length_changed),
    ("lengths moved", lengths_moved),
    ("lengths whose sum wraps", sum_wraps),
    ("two lengths more whose sum wraps", two_more),
    ("a length of zero", zero_length),
    ("bytes left over", left_over),
    ("bytes missing", bytes_missing),
    ("a frame too long or too short", frame_resized),
    ("a difference ahead of a fault", difference_and_fault),
    ("a fault in each", both_faulty),
];

/// What a long run is to reach of these.
pub fn names() -> impl Iterator<Item = &'static str> {
    KINDS.iter().map(|(name, _)| *name).chain(FULL.iter().map(|(name, _)| *name)).chain([LONGEST])
}

/// A pair of short recordings.
pub fn some_pair(random: &mut Random) -> Pair {
    let (name, make) = KINDS[random.below(KINDS.len())];
    let length = match random.below(9) {
        0 => 1,
        1..=6 => random.within(2, 14),
        7 => random.within(15, 60),
        _ => random.within(61, 200),
    };
    let frames = some_frames(length, random);
    pair(name, make(frames, random))
}

fn pair(name: &'static str, (one, other, known): Made) -> Pair {
    Pair { name, one, other, known }
}

/// The link of a good frame, by its first 13 bits.
fn link(frame: &[u8]) -> (u8, u8) {
    (frame[0] % 16, frame[1] / 8)
}

/// Links to draw from: one, a few, some on both sides of where the order goes from one client to the next, or all.
fn some_links(random: &mut Random) -> Vec<(u8, u8)> {
    let all: Vec<(u8, u8)> = (0..16).flat_map(|client| (0..=HEAD as u8).map(move |target| (client, target))).collect();
    match random.below(4) {
        0 => vec![random.pick(&all)],
        1 => (0..random.within(2, 4)).map(|_| random.pick(&all)).collect(),
        2 => {
            let (client, next) = (random.below(15) as u8, random.within(1, 15) as u8);
            vec![(client, 0), (client, 15), (client, 16), (client + 1, 0), (next, 1), (next, 16)]
        }
        _ => all,
    }
}

/// Frames of such links; a third of them are there already.
fn some_frames(length: usize, random: &mut Random) -> Frames {
    let links = some_links(random);
    let mut frames = Frames::new();
    while frames.len() < length {
        let (client, target) = random.pick(&links);
        let frame = match frames.len() {
            held if held > 0 && random.chance(1, 3) => frames[random.below(held)].clone(),
            _ => message_of_link(random, client, target).frame(),
        };
        frames.push(frame);
    }
    frames
}

/// Another frame of the same link.
fn other_frame(frame: &[u8], random: &mut Random) -> Vec<u8> {
    let (client, target) = link(frame);
    loop {
        let other = message_of_link(random, client, target).frame();
        if other != frame {
            return other;
        }
    }
}

/// The places of the frames that are of the link of a place.
fn of_its_link(frames: &Frames, place: usize) -> Vec<usize> {
    (0..frames.len()).filter(|&other| link(&frames[other]) == link(&frames[place])).collect()
}

/// That the pair first differs at a frame, by its place in the recording.
fn differ_at(frames: &Frames, place: usize) -> Known {
    let (client, target) = link(&frames[place]);
    let before = of_its_link(frames, place).into_iter().filter(|&other| other < place);
    Known::Exactly(Ok(Compared::Differ { client, target, place: before.count() }))
}

/// The frames, some past others of different links.
fn crossed(mut frames: Frames, random: &mut Random) -> Frames {
    let neighbours = frames.len().saturating_sub(1);
    for _ in 0..2 * neighbours {
        let place = random.below(neighbours);
        if link(&frames[place]) != link(&frames[place + 1]) {
            frames.swap(place, place + 1);
        }
    }
    frames
}

/// Two recordings in any order: the answer is the same.
fn either_way(one: Recording, other: Recording, known: Known, random: &mut Random) -> Made {
    if random.chance(1, 2) {
        (one, other, known)
    } else {
        (other, one, known)
    }
}

fn equal(frames: Frames, _: &mut Random) -> Made {
    (Recording::of(&frames), Recording::of(&frames), AGREE)
}

fn crossed_links(frames: Frames, random: &mut Random) -> Made {
    (Recording::of(&frames), Recording::of(crossed(frames, random)), AGREE)
}

/// Two different frames of one link in the other order.
fn swapped(mut frames: Frames, random: &mut Random) -> Made {
    let first = random.below(frames.len());
    let (second, frame) = (random.within(first + 1, frames.len()), other_frame(&frames[first], random));
    frames.insert(second, frame);
    let mut other = frames.clone();
    other.swap(first, second);
    let other = Recording::of(crossed(other, random));
    (Recording::of(&frames), other, differ_at(&frames, first))
}

/// The last frame of a link is missing.
fn missing_at_the_end(frames: Frames, random: &mut Random) -> Made {
    let chosen = random.below(frames.len());
    let last = of_its_link(&frames, chosen).pop().expect("it is of its own link");
    let mut other = frames.clone();
    other.remove(last);
    either_way(Recording::of(&frames), Recording::of(crossed(other, random)), differ_at(&frames, last), random)
}

/// Any frame is missing.
fn missing(frames: Frames, random: &mut Random) -> Made {
    let mut other = frames.clone();
    other.remove(random.below(frames.len()));
    either_way(Recording::of(&frames), Recording::of(crossed(other, random)), Known::NotAgree, random)
}

/// One bit is turned: that frame is not good any more, or is another one, maybe of another link.
fn one_bit(frames: Frames, random: &mut Random) -> Made {
    let one = Recording::of(&frames);
    let mut other = one.clone();
    let place = random.below(other.bytes.len());
    other.bytes[place] ^= 1 << random.below(8);
    either_way(one, other, Known::NotAgree, random)
}

/// Frames missing, changed or more in both.
fn several(frames: Frames, random: &mut Random) -> Made {
    let mut both = [frames.clone(), crossed(frames, random)];
    for frames in &mut both {
        for _ in 0..random.below(4) {
            let place = random.below(frames.len() + 1);
            match frames.get(place) {
                None => frames.extend(some_frames(1, random)),
                Some(_) if random.chance(1, 3) => drop(frames.remove(place)),
                Some(frame) => frames[place] = other_frame(frame, random),
            }
        }
    }
    let [one, other] = both.map(Recording::of);
    (one, other, Known::Nothing)
}

fn unlike(frames: Frames, random: &mut Random) -> Made {
    let other = some_frames(random.within(1, frames.len()), random);
    (Recording::of(frames), Recording::of(other), Known::Nothing)
}

fn one_empty(frames: Frames, random: &mut Random) -> Made {
    let least = (0..frames.len()).min_by_key(|&place| link(&frames[place])).expect("there is one");
    let known = differ_at(&frames, least);
    either_way(Recording::of(&frames), Recording::default(), known, random)
}

fn both_empty(_: Frames, _: &mut Random) -> Made {
    (Recording::default(), Recording::default(), AGREE)
}

/// A recording that is broken beside the good one that it was, or beside one of other frames.
fn broken(frames: Frames, random: &mut Random, damage: impl FnOnce(&mut Recording, &mut Random)) -> Made {
    let good = if random.chance(1, 2) { frames.clone() } else { some_frames(random.within(1, 5), random) };
    let mut broken = Recording::of(frames);
    damage(&mut broken, random);
    either_way(broken, Recording::of(good), REFUSED, random)
}

fn length_changed(frames: Frames, random: &mut Random) -> Made {
    broken(frames, random, |broken, random| {
        let place = random.below(broken.lengths.len());
        let length = broken.lengths[place];
        let other = match random.below(4) {
            0 => length + 1,
            1 => length - 1,
            2 => 0,
            _ => random.word(),
        };
        broken.lengths[place] = if other == length { length + 2 } else { other };
    })
}

/// Two places of a recording, of which there are two at least.
fn two_places(broken: &mut Recording, random: &mut Random) -> (usize, usize) {
    if broken.lengths.len() < 2 {
        broken.push(&some_frames(1, random)[0]);
    }
    let first = random.below(broken.lengths.len() - 1);
    (first, random.within(first + 1, broken.lengths.len() - 1))
}

/// A byte or more goes from one length to another: the sum is right, and the frames are not.
fn lengths_moved(frames: Frames, random: &mut Random) -> Made {
    broken(frames, random, |broken, random| {
        let (first, second) = two_places(broken, random);
        let (from, to) = if random.chance(1, 2) { (first, second) } else { (second, first) };
        let moved = random.within(1, broken.lengths[from] as usize) as u32;
        broken.lengths[from] -= moved;
        broken.lengths[to] += moved;
    })
}

/// One length grows and another falls so far that the remainder of the sum by 2^32 is right.
fn sum_wraps(frames: Frames, random: &mut Random) -> Made {
    broken(frames, random, |broken, random| {
        let (first, second) = two_places(broken, random);
        let moved = random.word().max(1);
        broken.lengths[first] = broken.lengths[first].wrapping_add(moved);
        broken.lengths[second] = broken.lengths[second].wrapping_sub(moved);
    })
}

/// Two lengths more, which are 2^32 together.
fn two_more(frames: Frames, random: &mut Random) -> Made {
    broken(frames, random, |broken, random| {
        let length = random.word().max(1);
        for more in [length, length.wrapping_neg()] {
            broken.lengths.insert(random.below(broken.lengths.len() + 1), more);
        }
    })
}

fn zero_length(frames: Frames, random: &mut Random) -> Made {
    broken(frames, random, |broken, random| broken.lengths.insert(random.below(broken.lengths.len() + 1), 0))
}

/// Some bytes, or a whole frame whose length is not there.
fn left_over(frames: Frames, random: &mut Random) -> Made {
    broken(frames, random, |broken, random| match random.below(2) {
        0 => broken.bytes.extend(vec![random.pick(&[0, 255]); random.within(1, 3)]),
        _ => broken.bytes.extend(&some_frames(1, random)[0]),
    })
}

/// The last bytes are missing, often those of the last frame.
fn bytes_missing(frames: Frames, random: &mut Random) -> Made {
    broken(frames, random, |broken, random| {
        let last = *broken.lengths.last().expect("there is one") as usize;
        let any = random.within(1, broken.bytes.len());
        let missing = random.pick(&[1, last, any]);
        broken.bytes.truncate(broken.bytes.len() - missing);
    })
}

/// A frame with a byte more or fewer, and its length with it: 11 or 10.
fn frame_resized(mut frames: Frames, random: &mut Random) -> Made {
    let good = frames.clone();
    let place = random.below(frames.len());
    if random.chance(1, 2) {
        frames[place].push(random.pick(&[0, 1, 255]));
    } else {
        frames[place].pop();
    }
    either_way(Recording::of(frames), Recording::of(good), REFUSED, random)
}

/// A good recording, and one that differs from it at once and has a fault in its last frame.
fn difference_and_fault(frames: Frames, random: &mut Random) -> Made {
    let mut other = frames.clone();
    other[0] = other_frame(&frames[0], random);
    other.push(vec![random.pick(&[0x00, 0xD0, 0x10]), 0]);
    either_way(Recording::of(frames), Recording::of(other), REFUSED, random)
}

fn both_faulty(frames: Frames, random: &mut Random) -> Made {
    let mut one = Recording::of(&frames);
    let mut other = one.clone();
    one.lengths.push(random.pick(&[0, 1, u32::MAX]));
    other.bytes.push(random.pick(&[0, 1]));
    either_way(one, other, REFUSED, random)
}

/// Full recordings, in turn; the links are one, a few or all.
const FULL: [(&str, Making); 8] = [
    ("full: equal", equal),
    ("full: the last frame another", last_changed),
    ("full: crossed", crossed_links),
    ("full: the last frame missing", last_missing),
    ("full: one frame too many", too_many),
    ("full: swapped on one link", swapped_when_full),
    ("full: one frame too many in both", too_many_in_both),
    ("full: one bit turned", one_bit),
];
const LONGEST: &str = "full: the longest frames, the last another";

/// A pair of recordings that are full, or have a frame too many or too few.
pub fn full_pair(place: usize, random: &mut Random) -> Pair {
    let (name, make) = FULL[place % FULL.len()];
    let links = some_links(random);
    let frames = (0..MOST_FRAMES).map(|_| short_frame(random.pick(&links), random)).collect();
    pair(name, make(frames, random))
}

/// A pair of as many frames as there can be, and of the longest, which differ at their end.
pub fn longest_pair(random: &mut Random) -> Pair {
    let fixed = Fixed { kind: 10, client: 15, server: 15, entries: 256, ..Fixed::default() };
    let [frame, last] = [(); 2].map(|_| good_message_of(random, fixed).frame());
    let frames = vec![frame; MOST_FRAMES];
    let mut other = frames.clone();
    other[MOST_FRAMES - 1] = last;
    pair(LONGEST, (Recording::of(&frames), Recording::of(other), differ_at(&frames, MOST_FRAMES - 1)))
}

/// A frame of a link of a kind without entries.
fn short_frame((client, target): (u8, u8), random: &mut Random) -> Vec<u8> {
    let kinds = if u32::from(target) < HEAD { [1, 2, 7, 8, 9] } else { [3, 3, 4, 5, 11] };
    let kind = random.pick(&kinds);
    let server = if u32::from(target) < HEAD { target } else { 0 };
    good_message_of(random, Fixed { kind, client, server, ..Fixed::default() }).frame()
}

/// The last place of the last link that has frames.
fn last_of_all(frames: &Frames) -> usize {
    (0..frames.len()).max_by_key(|&place| (link(&frames[place]), place)).expect("there is one")
}

fn last_changed(frames: Frames, random: &mut Random) -> Made {
    let last = last_of_all(&frames);
    let mut other = frames.clone();
    other[last] = other_frame(&frames[last], random);
    either_way(Recording::of(&frames), Recording::of(other), differ_at(&frames, last), random)
}

fn last_missing(frames: Frames, random: &mut Random) -> Made {
    let last = last_of_all(&frames);
    let mut other = frames.clone();
    other.remove(last);
    either_way(Recording::of(&frames), Recording::of(other), differ_at(&frames, last), random)
}

fn swapped_when_full(mut frames: Frames, random: &mut Random) -> Made {
    frames.pop();
    swapped(frames, random)
}

fn too_many(frames: Frames, random: &mut Random) -> Made {
    let mut other = Recording::of(&frames);
    other.push(&frames[random.below(frames.len())]);
    either_way(Recording::of(&frames), other, REFUSED, random)
}

fn too_many_in_both(mut frames: Frames, _: &mut Random) -> Made {
    frames.push(frames[0].clone());
    let one = Recording::of(&frames);
    (one.clone(), one, REFUSED)
}
