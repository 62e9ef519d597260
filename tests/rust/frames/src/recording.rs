//! Two recordings of one wire, document 02's E8, compared from the definition.

use crate::{read, Message};
use model::Refusal;

/// "Each stores up to 4,096 frames in order".
pub const MOST_FRAMES: usize = 4096;

/// "their lengths, and their bytes end to end"
#[derive(Clone, Debug, Default, PartialEq, Eq)]
pub struct Recording {
    pub lengths: Vec<u32>,
    pub bytes: Vec<u8>,
}

/// "Two recordings agree exactly when, for every panel and target, the frames of that link are equal in both and in equal order ...
/// Otherwise the lowest panel, then lowest target, with a difference is named, and the place, from 0, of its first differing or missing
/// frame on that link."
#[derive(Clone, Copy, Debug, PartialEq, Eq)]
pub enum Compared {
    Agree,
    Differ { client: u8, target: u8, place: usize },
}

/// A frame of a recording, and the link that its header names.
#[derive(Clone, Copy)]
struct Recorded<'a> {
    client: u8,
    target: u8,
    bytes: &'a [u8],
}

impl Recording {
    /// Frames one behind the other.
    pub fn of<F: AsRef<[u8]>>(frames: impl IntoIterator<Item = F>) -> Recording {
        let mut recording = Recording::default();
        frames.into_iter().for_each(|frame| recording.push(frame.as_ref()));
        recording
    }

    pub fn push(&mut self, frame: &[u8]) {
        self.lengths.push(frame.len() as u32);
        self.bytes.extend(frame);
    }

    /// "More frames, lengths not adding up to the bytes, or a frame that gives 10 or 11 return 16".
    fn frames(&self) -> Result<Vec<Recorded<'_>>, Refusal> {
        if self.lengths.len() > MOST_FRAMES {
            return Err(Refusal::BadRecording);
        }
        let mut rest = &self.bytes[..];
        let mut frames = Vec::new();
        for &length in &self.lengths {
            let (bytes, behind) = rest.split_at_checked(length as usize).ok_or(Refusal::BadRecording)?;
            let message = read(bytes).map_err(|_| Refusal::BadRecording)?;
            frames.push(recorded(&message, bytes));
            rest = behind;
        }
        if rest.is_empty() {
            Ok(frames)
        } else {
            Err(Refusal::BadRecording)
        }
    }
}

fn recorded<'a>(message: &Message, bytes: &'a [u8]) -> Recorded<'a> {
    Recorded { client: message.client(), target: message.target() as u8, bytes }
}

/// The frames of a link, in order.
fn of_link<'a>(frames: &[Recorded<'a>], client: u8, target: u8) -> Vec<&'a [u8]> {
    let on_link = |frame: &&Recorded| (frame.client, frame.target) == (client, target);
    frames.iter().filter(on_link).map(|frame| frame.bytes).collect()
}

/// Compares two recordings; refused by 16, for a fault of either, "ahead of any comparing".
pub fn compare(one: &Recording, other: &Recording) -> Result<Compared, Refusal> {
    let (one, other) = (one.frames()?, other.frames()?);
    for client in 0..16 {
        for target in 0..=16 {
            let (left, right) = (of_link(&one, client, target), of_link(&other, client, target));
            let longest = left.len().max(right.len());
            if let Some(place) = (0..longest).find(|&place| left.get(place) != right.get(place)) {
                return Ok(Compared::Differ { client, target, place });
            }
        }
    }
    Ok(Compared::Agree)
}
