//! Messages with their entries in three lent slices, key words, badges and numbers, as the proved crate takes them.

use crate::message::Message;
use crate::{read, write};
use model::{Entry, Key, Latest, Refusal, Version};

/// What is fixed in a message, as numbers; what a kind lacks is 0, so the server of one to or from the head.
#[derive(Clone, Copy, Debug, Default, PartialEq, Eq)]
pub struct Fixed {
    pub kind: u32,
    pub client: u8,
    pub server: u8,
    pub key: (u8, u8),
    pub badge: u16,
    pub number: u32,
    pub tag: u8,
    pub entries: u32,
}

/// Reads a frame: entries go to the front of the slices, badges only where the kind has them. Refused by 10 or 11, whichever fault
/// comes first, then by 12, with the slices as before.
pub fn read_lent(bytes: &[u8], keys: &mut [u32], badges: &mut [u32], numbers: &mut [u32]) -> Result<Fixed, Refusal> {
    let message = read(bytes)?;
    let found = entries_of(&message);
    let lent = [keys, badges, numbers];
    if lent.iter().zip(&found).any(|(lent, found)| lent.len() < found.len()) {
        return Err(Refusal::NoRoom);
    }
    for (lent, found) in lent.into_iter().zip(&found) {
        lent[..found.len()].copy_from_slice(found);
    }
    Ok(fixed_of(&message))
}

/// Writes a message to the front of the bytes: its length, or refused by 11, then 12, with the bytes as before.
pub fn write_lent(fixed: &Fixed, keys: &[u32], badges: &[u32], numbers: &[u32], bytes: &mut [u8]) -> Result<usize, Refusal> {
    let message = message_of(fixed, keys, badges, numbers).ok_or(Refusal::BadField)?;
    let frame = write(&message)?;
    let room = bytes.get_mut(..frame.len()).ok_or(Refusal::NoRoom)?;
    room.copy_from_slice(&frame);
    Ok(frame.len())
}

/// The entries of a message as key words, badges and numbers.
fn entries_of(message: &Message) -> [Vec<u32>; 3] {
    let parts = |(keys, numbers)| [keys, Vec::new(), numbers];
    match message {
        Message::Keys { keys, .. } => parts(keys.iter().map(|latest| (latest.key.word(), latest.tag as u32)).unzip()),
        Message::All { versions, .. } => [
            versions.iter().map(|version| version.key.word()).collect(),
            versions.iter().map(|version| u32::from(version.badge)).collect(),
            versions.iter().map(|version| version.setpoint).collect(),
        ],
        Message::Log { entries, .. } => parts(entries.iter().map(|entry| (entry.key.word(), entry.mask)).unzip()),
        _ => Default::default(),
    }
}

/// The fixed part of a message.
fn fixed_of(message: &Message) -> Fixed {
    let kind = message.kind();
    let server = if crate::message::to_server(kind) { message.target() as u8 } else { 0 };
    let plain = Fixed { kind, client: message.client(), server, ..Fixed::default() };
    match *message {
        Message::Set { key, badge, setpoint, .. } => Fixed { key: (key.count, key.client), badge, number: setpoint, ..plain },
        Message::Enter { key, mask, .. } => Fixed { key: (key.count, key.client), number: mask, ..plain },
        Message::Entered { tag, .. } => Fixed { tag, ..plain },
        Message::Keys { tag, ref keys, .. } => Fixed { tag, entries: keys.len() as u32, ..plain },
        Message::Get { key, .. } => Fixed { key: (key.count, key.client), ..plain },
        Message::Got { badge, setpoint, .. } => Fixed { badge, number: setpoint, ..plain },
        Message::All { ref versions, .. } => Fixed { entries: versions.len() as u32, ..plain },
        Message::Log { ref entries, .. } => Fixed { entries: entries.len() as u32, ..plain },
        _ => plain,
    }
}

/// The message of a fixed part and its entries; none where the kind is none, entries are missing, or a key or badge is no two
/// bytes.
fn message_of(fixed: &Fixed, keys: &[u32], badges: &[u32], numbers: &[u32]) -> Option<Message> {
    let Fixed { kind, client, server, key: (count, key_client), badge, number, tag, .. } = *fixed;
    let key = Key { count, client: key_client };
    let entries = fixed.entries as usize;
    Some(match kind {
        1 => Message::Set { client, server, key, badge, setpoint: number },
        2 => Message::SetDone { client, server },
        3 => Message::Enter { client, key, mask: number },
        4 => Message::Entered { client, tag },
        5 => Message::WhichKeys { client },
        6 => {
            let latest = |(key, &tag)| Latest { key, tag: tag as usize };
            let keys = lent_keys(keys, entries)?.into_iter();
            Message::Keys { client, tag, keys: keys.zip(numbers.get(..entries)?).map(latest).collect() }
        }
        7 => Message::Get { client, server, key },
        8 => Message::Got { client, server, badge, setpoint: number },
        9 => Message::GetAll { client, server },
        10 => {
            let version = |((key, badge), &setpoint)| Version { key, badge, setpoint };
            let values = lent_badges(badges, entries)?.into_iter();
            let rows = lent_keys(keys, entries)?.into_iter().zip(values).zip(numbers.get(..entries)?);
            Message::All { client, server, versions: rows.map(version).collect() }
        }
        11 => Message::GetLog { client },
        12 => {
            let entry = |(key, &mask)| Entry { key, mask };
            let keys = lent_keys(keys, entries)?.into_iter();
            Message::Log { client, entries: keys.zip(numbers.get(..entries)?).map(entry).collect() }
        }
        _ => return None,
    })
}

/// The first keys of the slice; none where it has fewer, or a word is no two bytes.
fn lent_keys(words: &[u32], entries: usize) -> Option<Vec<Key>> {
    let key = |&word: &u32| Some(Key { count: u8::try_from(word / 256).ok()?, client: (word % 256) as u8 });
    words.get(..entries)?.iter().map(key).collect()
}

/// The first badges of the slice; none where it has fewer, or one has more than 16 bits.
fn lent_badges(words: &[u32], entries: usize) -> Option<Vec<u16>> {
    words.get(..entries)?.iter().map(|&word| u16::try_from(word).ok()).collect()
}
