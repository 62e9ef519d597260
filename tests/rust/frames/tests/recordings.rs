//! Two recordings of one wire, worked out by hand.

use frames::recording::{compare, Compared, Recording, MOST_FRAMES};
use frames::{write, Message};
use model::{Key, Refusal};

/// A get all of a client at a server, two bytes, and a got with a setpoint, eight bytes.
fn get_all(client: u8, server: u8) -> Vec<u8> {
    write(&Message::GetAll { client, server }).expect("writable")
}

fn got(client: u8, server: u8, setpoint: u32) -> Vec<u8> {
    write(&Message::Got { client, server, badge: 7, setpoint }).expect("writable")
}

/// A get log of a client at the coordinator.
fn get_log(client: u8) -> Vec<u8> {
    write(&Message::GetLog { client }).expect("writable")
}

fn differ(client: u8, target: u8, place: usize) -> Result<Compared, Refusal> {
    Ok(Compared::Differ { client, target, place })
}

const AGREE: Result<Compared, Refusal> = Ok(Compared::Agree);
const REFUSED: Result<Compared, Refusal> = Err(Refusal::BadRecording);

/// The answer, which the other way round must be the same.
fn both(one: &Recording, other: &Recording) -> Result<Compared, Refusal> {
    let found = compare(one, other);
    assert_eq!(compare(other, one), found, "swapping the recordings changes nothing");
    found
}

fn compared(one: &[Vec<u8>], other: &[Vec<u8>]) -> Result<Compared, Refusal> {
    both(&Recording::of(one), &Recording::of(other))
}

#[test]
fn equal_ones_agree() {
    assert_eq!(compared(&[], &[]), AGREE);
    let frames = [got(1, 0, 5), get_log(1), got(1, 0, 5)];
    assert_eq!(compared(&frames, &frames), AGREE);
}

#[test]
fn frames_of_different_links_may_have_crossed() {
    let frames = [got(1, 0, 5), got(1, 1, 5), get_log(1)];
    for order in [[1, 0, 2], [2, 1, 0], [0, 2, 1]] {
        assert_eq!(compared(&frames, &order.map(|place| frames[place].clone())), AGREE);
    }
}

#[test]
fn frames_of_one_link_may_not() {
    let (first, second) = (got(1, 0, 5), got(1, 0, 6));
    let other = get_log(0);
    let one = [other.clone(), first.clone(), get_all(1, 0), second.clone()];
    assert_eq!(compared(&one, &[other, second, get_all(1, 0), first]), differ(1, 0, 0));
}

/// The place counts on the link, and not in the recording.
#[test]
fn a_missing_frame() {
    let frames = [get_log(3), get_log(2), get_log(3), got(3, 4, 1), get_log(3)];
    let without = |place: usize| [&frames[..place], &frames[place + 1..]].concat();
    assert_eq!(compared(&frames, &without(4)), differ(3, 16, 2));
    // All that is left of its link is one frame fewer, of equal ones.
    assert_eq!(compared(&frames, &without(0)), differ(3, 16, 2));
    assert_eq!(compared(&frames, &without(3)), differ(3, 4, 0));
    assert_eq!(compared(&frames, &without(1)), differ(2, 16, 0));
    assert_eq!(compared(&frames, &[]), differ(2, 16, 0));
}

/// Client 1 at target 16 stands before client 2 at target 0.
#[test]
fn the_lowest_client_then_the_lowest_target() {
    assert_eq!(compared(&[got(2, 0, 1), get_log(1)], &[]), differ(1, 16, 0));
    assert_eq!(compared(&[got(1, 3, 1), got(1, 2, 1)], &[]), differ(1, 2, 0));
    assert_eq!(compared(&[got(0, 15, 1)], &[got(0, 15, 1), got(0, 15, 1), got(15, 0, 0)]), differ(0, 15, 1));
}

/// One bit of a setpoint is turned: the frame is as good, and another.
#[test]
fn one_bit() {
    assert_eq!(compared(&[got(4, 9, 1800)], &[got(4, 9, 1801)]), differ(4, 9, 0));
    let key = Key { count: 1, client: 2 };
    let get = |server| write(&Message::Get { client: 2, server, key }).expect("writable");
    assert_eq!(compared(&[get(0)], &[get(1)]), differ(2, 0, 0));
}

/// The recording with other lengths or bytes, beside a good one and an empty one, and beside itself.
fn refused(lengths: &[u32], bytes: &[u8]) {
    let broken = Recording { lengths: lengths.to_vec(), bytes: bytes.to_vec() };
    for good in [Recording::of([got(0, 0, 1)]), Recording::default(), broken.clone()] {
        assert_eq!(both(&broken, &good), REFUSED, "{broken:?}");
    }
}

#[test]
fn lengths_that_do_not_add_up() {
    let bytes = [get_all(0, 0), got(0, 0, 1)].concat();
    assert_eq!(both(&Recording { lengths: vec![2, 8], bytes: bytes.clone() }, &Recording::default()), differ(0, 0, 0));
    for lengths in [&[][..], &[2], &[2, 7], &[2, 9], &[2, 8, 1], &[2, u32::MAX], &[8, 2], &[10]] {
        refused(lengths, &bytes);
    }
    // The sum is 2^32 + 10, or 10 without its upper half.
    refused(&[2, 1 << 31, 1 << 31, 8], &bytes);
    refused(&[u32::MAX, 11], &bytes);
}

#[test]
fn a_length_of_zero() {
    refused(&[0], &[]);
    let bytes = got(0, 0, 1);
    for lengths in [[0, 8], [8, 0]] {
        refused(&lengths, &bytes);
    }
}

#[test]
fn a_frame_that_gives_10_or_11() {
    let good = got(0, 0, 1);
    refused(&[7], &good[..7]);
    refused(&[9], &[&good[..], &[0]].concat());
    refused(&[8], &[&good[..7], &[1]].concat());
    refused(&[2], &[0xD0, 0]);
    // The fault stands behind a difference, and decides all the same.
    let broken = Recording { lengths: vec![2, 2], bytes: [get_all(1, 1), vec![0, 0]].concat() };
    assert_eq!(both(&broken, &Recording::of([get_all(2, 2)])), REFUSED);
}

#[test]
fn most_frames() {
    let full = Recording::of(vec![get_all(9, 9); MOST_FRAMES]);
    let mut shorter = full.clone();
    shorter.lengths.pop();
    shorter.bytes.truncate(2 * MOST_FRAMES - 2);
    assert_eq!(both(&full, &full), AGREE);
    assert_eq!(both(&full, &shorter), differ(9, 9, MOST_FRAMES - 1));
    let mut longer = full.clone();
    longer.push(&get_all(9, 9));
    for other in [full, longer.clone(), Recording::default()] {
        assert_eq!(both(&longer, &other), REFUSED);
    }
}
