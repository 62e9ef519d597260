//! Two recordings compared by the method of the proved crate, in plain Rust written for speed: each recording is judged once, frame by
//! frame, then a cursor in each goes over the frames of one link after another. Nothing is stored but where the cursors are.

use frames::recording::{Recording, MOST_FRAMES};

const REFUSED: u64 = 16;
/// The bits of the first two bytes that have client and target.
const LINK: u16 = 0x0FF8;

/// The answer, as the exported function gives it.
#[inline(never)]
pub fn compare(one: &Recording, other: &Recording) -> u64 {
    if !all_good(one) || !all_good(other) {
        return REFUSED;
    }
    for client in 0..16 {
        for target in 0..=16 {
            if let Some(place) = first_difference(one, other, client << 8 | target << 3) {
                return (1 << 32) + ((u64::from(client) * 256 + u64::from(target)) << 16) + place;
            }
        }
    }
    0
}

/// The place of the first frame of a link that differs or is missing.
fn first_difference(one: &Recording, other: &Recording, link: u16) -> Option<u64> {
    let [mut one, mut other] = [one, other].map(Cursor::at_front);
    let mut place = 0;
    loop {
        match (one.next_of(link), other.next_of(link)) {
            (None, None) => return None,
            (frame, beside) if frame != beside => return Some(place),
            _ => place += 1,
        }
    }
}

/// A place in a recording whose frames are all good: a frame's number, and where its bytes begin.
struct Cursor<'a> {
    recording: &'a Recording,
    frame: usize,
    at: usize,
}

impl<'a> Cursor<'a> {
    fn at_front(recording: &'a Recording) -> Cursor<'a> {
        Cursor { recording, frame: 0, at: 0 }
    }

    /// The next frame of a link, and the cursor behind it.
    #[inline(always)]
    fn next_of(&mut self, link: u16) -> Option<&'a [u8]> {
        let Recording { lengths, bytes } = self.recording;
        while let Some(&length) = lengths.get(self.frame) {
            let from = self.at;
            self.frame += 1;
            self.at += length as usize;
            let header = bytes.get(from..from + 2)?;
            if u16::from_be_bytes([header[0], header[1]]) & LINK == link {
                return bytes.get(from..self.at);
            }
        }
        None
    }
}

/// Whether a recording has frames, not too many, that are all good and use up its bytes.
fn all_good(recording: &Recording) -> bool {
    let mut rest = &recording.bytes[..];
    recording.lengths.len() <= MOST_FRAMES
        && recording.lengths.iter().all(|&length| match rest.split_at_checked(length as usize) {
            Some((frame, behind)) => {
                rest = behind;
                good(frame)
            }
            None => false,
        })
        && rest.is_empty()
}

/// Whether the reader would find nothing wrong with a frame: its fields, its length and its padding.
fn good(frame: &[u8]) -> bool {
    let Some(bits) = bits_of(frame) else {
        return false;
    };
    frame.len() == bits.div_ceil(8) && (bits.is_multiple_of(8) || frame[bits / 8] << (bits % 8) == 0)
}

/// The bits that a frame is to have; none where a field is wrong, or cut short among those that are looked at.
fn bits_of(frame: &[u8]) -> Option<usize> {
    let [first, second, ..] = *frame else {
        return None;
    };
    let (kind, client, target) = (first >> 4, u32::from(first & 15), second >> 3);
    let to_server = matches!(kind, 1 | 2 | 7 | 8 | 9 | 10);
    if (to_server && target > 15) || (!to_server && target != 16) {
        return None;
    }
    match kind {
        2 | 5 | 9 | 11 => Some(13),
        1 => own_key(frame, client).then_some(73),
        3 => (own_key(frame, client) && field(frame, 25, 16)? != 0).then_some(41),
        4 => (field(frame, 13, 8)? != 0).then_some(21),
        7 => good_key(field(frame, 13, 12)?).then_some(25),
        8 => Some(61),
        6 => match field(frame, 21, 5)? {
            entries @ 1..=16 => entries_end(frame, 26, entries, 20, false),
            _ => None,
        },
        10 => entries_end(frame, 21, field(frame, 13, 8)? + 1, 60, false),
        12 => entries_end(frame, 21, field(frame, 13, 8)? + 1, 28, true),
        _ => None,
    }
}

/// The place behind entries of a key and what stands behind it, which of a log is a mask.
fn entries_end(frame: &[u8], first: usize, entries: u32, width: usize, masks: bool) -> Option<usize> {
    let end = first + width * entries as usize;
    if 8 * frame.len() < end {
        return None;
    }
    for at in (first..end).step_by(width) {
        if !good_key(field(frame, at, 12)?) || (masks && field(frame, at + 12, 16)? == 0) {
            return None;
        }
    }
    Some(end)
}

/// A key of the frame's own client: its count is not 0.
fn own_key(frame: &[u8], client: u32) -> bool {
    field(frame, 13, 12).is_some_and(|key| key >= 16 && key % 16 == client)
}

/// A key of count 0 has client 0.
fn good_key(key: u32) -> bool {
    key >= 16 || key == 0
}

/// A field of at most 16 bits behind the first `at`, out of the bytes that it stands in.
#[inline(always)]
fn field(frame: &[u8], at: usize, width: usize) -> Option<u32> {
    let end = at + width;
    let held = frame.get(at / 8..end.div_ceil(8))?;
    let word = held.iter().fold(0, |word, &byte| word << 8 | u32::from(byte));
    Some(word >> (8 * end.div_ceil(8) - end) & ((1 << width) - 1))
}

#[cfg(test)]
mod tests {
    use super::good;
    use crate::frame_speed::{entries_beside, message, FRAMES, MOST_BYTES};
    use frames::lent::write_lent;

    /// Frames of each kind, cut short, with a byte behind and with each bit turned: what is good is what the model's reader reads.
    #[test]
    fn frames_are_judged_as_the_reader_does() {
        for (kind, entries) in FRAMES.into_iter().filter(|&(_, entries)| entries <= 16) {
            let [keys, badges, numbers] = entries_beside(kind, entries);
            let mut frame = vec![0; MOST_BYTES];
            let length = write_lent(&message(kind, entries), &keys, &badges, &numbers, &mut frame).expect("a good message");
            (0..=length + 1).for_each(|length| same(&frame[..length]));
            for bit in 0..8 * length {
                let mut turned = frame[..length].to_vec();
                turned[bit / 8] ^= 1 << (bit % 8);
                same(&turned);
                turned[length - 1] &= 0xF0;
                same(&turned);
            }
        }
        (0..=u16::MAX).for_each(|header| same(&header.to_be_bytes()));
    }

    fn same(frame: &[u8]) {
        assert_eq!(good(frame), frames::read(frame).is_ok(), "{frame:02x?}");
    }
}
