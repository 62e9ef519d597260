//! Two recordings compared: the proved crate beside plain Rust of the same method.

use crate::table::{print, ratio, thousands};
use crate::two_cursors;
use ffi::RecordingLibrary;
use frames::recording::{self, Recording, MOST_FRAMES};
use frames::{write, Message};
use model::{Key, Version};
use std::hint::black_box;
use std::time::Instant;

const GOAL: f64 = 2.0;
/// How often the two sides take turns.
const TURNS: usize = 60;
const HEADS: [&str; 6] = ["two recordings of 4,096 frames", "bytes of each", "answer", "proved µs", "Rust µs", "ratio"];

/// The last link that is looked at.
const LAST: (u8, u8) = (15, 16);

struct Case {
    name: &'static str,
    one: Recording,
    other: Recording,
    goal: f64,
}

pub fn report(library: RecordingLibrary) {
    let rows: Vec<Vec<String>> = cases().iter().map(|case| row(library, case)).collect();
    print("Recordings", &HEADS, &rows);
}

/// The cases with a goal, and one of the longest frames, of which reading takes nearly all the time.
fn cases() -> Vec<Case> {
    let one_link = |link| (0..MOST_FRAMES).map(|place| frame(link, place)).collect::<Vec<_>>();
    let all_links: Vec<Vec<u8>> =
        (0..MOST_FRAMES).map(|place| frame(((place / 17 % 16) as u8, (place % 17) as u8), place)).collect();
    let longest = vec![longest_frame(); MOST_FRAMES];
    vec![
        case("all of one link, the first, equal", one_link((0, 0)), |_| ()),
        case("all of one link, the last, equal", one_link(LAST), |_| ()),
        case("all of one link, the last, the last frame missing", one_link(LAST), |frames| drop(frames.pop())),
        case("of 16 × 17 links in turn, equal", all_links.clone(), |_| ()),
        case("of 16 × 17 links in turn, the last frame of the last link another", all_links.clone(), |frames| {
            let last = frames.iter_mut().rfind(|frame| link_of(frame) == LAST).expect("the last link has frames");
            *last = written(&Message::Entered { client: LAST.0, tag: 255 });
        }),
        case("of 16 × 17 links, one link behind the other", by_link(&all_links), |_| ()),
        Case { goal: f64::INFINITY, ..case("of 256 versions each, equal", longest, |_| ()) },
    ]
}

/// A recording beside a changed copy of it.
fn case(name: &'static str, frames: Vec<Vec<u8>>, change: impl FnOnce(&mut Vec<Vec<u8>>)) -> Case {
    let mut other = frames.clone();
    change(&mut other);
    Case { name, one: Recording::of(frames), other: Recording::of(other), goal: GOAL }
}

fn link_of(frame: &[u8]) -> (u8, u8) {
    (frame[0] % 16, frame[1] / 8)
}

/// The same frames, sorted by their links.
fn by_link(frames: &[Vec<u8>]) -> Vec<Vec<u8>> {
    let mut sorted = frames.to_vec();
    sorted.sort_by_key(|frame| link_of(frame));
    sorted
}

fn written(message: &Message) -> Vec<u8> {
    write(message).expect("a good message")
}

/// A frame of a link; the kinds that have no entries come in turn.
fn frame((client, target): (u8, u8), place: usize) -> Vec<u8> {
    let key = Key { count: 1 + (place % 255) as u8, client };
    let (server, badge, setpoint) = (target, place as u16, place as u32);
    written(&match (target < 16, place / 17 % 5) {
        (true, 0) => Message::Set { client, server, key, badge, setpoint },
        (true, 1) => Message::SetDone { client, server },
        (true, 2) => Message::Get { client, server, key },
        (true, 3) => Message::Got { client, server, badge, setpoint },
        (true, _) => Message::GetAll { client, server },
        (false, 0 | 1) => Message::Enter { client, key, mask: 1 + setpoint },
        (false, 2) => Message::Entered { client, tag: key.count },
        (false, 3) => Message::WhichKeys { client },
        (false, _) => Message::GetLog { client },
    })
}

fn longest_frame() -> Vec<u8> {
    let version = |place: u32| Version { key: Key { count: 1 + (place % 255) as u8, client: 3 }, badge: 7, setpoint: place };
    written(&Message::All { client: LAST.0, server: 15, versions: (0..256).map(version).collect() })
}

/// The least time of each side over all turns. Both give what the definition says.
fn row(library: RecordingLibrary, Case { name, one, other, goal }: &Case) -> Vec<String> {
    let (found, by_rust) = (library.number(one, other), two_cursors::compare(one, other));
    assert_eq!(ffi::recording::answer(found), recording::compare(one, other), "{name}");
    assert_eq!(found, by_rust, "{name}");
    let (mut proved, mut rust) = (f64::INFINITY, f64::INFINITY);
    for _ in 0..TURNS {
        proved = proved.min(microseconds(|| library.number(black_box(one), black_box(other))));
        rust = rust.min(microseconds(|| two_cursors::compare(black_box(one), black_box(other))));
    }
    let answer = if found == 0 { "agree" } else { "differ" };
    vec![
        name.to_string(),
        thousands(one.bytes.len() as f64),
        answer.into(),
        thousands(proved),
        thousands(rust),
        ratio(proved, rust, *goal),
    ]
}

fn microseconds(call: impl FnOnce() -> u64) -> f64 {
    let started = Instant::now();
    black_box(call());
    started.elapsed().as_nanos() as f64 / 1000.0
}

#[cfg(test)]
mod tests {
    use super::*;

    #[test]
    fn both_answer_alike() {
        for Case { name, one, other, .. } in cases() {
            assert_eq!(ffi::recording::answer(two_cursors::compare(&one, &other)), recording::compare(&one, &other), "{name}");
        }
    }

    #[test]
    fn faults_are_refused() {
        let good = Recording::of([frame((0, 0), 0), frame((3, 4), 1)]);
        let mut broken = [good.clone(), good.clone(), good.clone(), Recording::of(vec![frame((0, 0), 0); MOST_FRAMES + 1])];
        broken[0].lengths[1] = u32::MAX;
        broken[1].bytes.push(0);
        broken[2].lengths.push(0);
        for broken in broken {
            assert_eq!(two_cursors::compare(&broken, &good), 16);
            assert_eq!(two_cursors::compare(&good, &broken), 16);
        }
    }
}
