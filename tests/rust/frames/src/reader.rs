//! The frame reader. "Fields are read in order; the first fault decides."

use crate::bits::BitReader;
use crate::check;
use crate::message::{to_server, Message, HEAD, KINDS, MOST_KEYS};
use model::{Entry, Key, Latest, Refusal, Version};

/// The message of a frame; refused by 10 or 11.
pub fn read(bytes: &[u8]) -> Result<Message, Refusal> {
    let mut fields = BitReader::new(bytes);
    let kind = fields.field(4)?;
    check((1..=KINDS).contains(&kind))?;
    let client = fields.field(4)? as u8;
    let target = fields.field(5)?;
    check(if to_server(kind) { target < HEAD } else { target == HEAD })?;
    let message = body(&mut fields, kind, client, target as u8)?;
    fields.finish()?;
    Ok(message)
}

fn body(fields: &mut BitReader, kind: u32, client: u8, server: u8) -> Result<Message, Refusal> {
    Ok(match kind {
        1 => {
            let key = own_key(fields, client)?;
            Message::Set { client, server, key, badge: badge(fields)?, setpoint: fields.field(32)? }
        }
        2 => Message::SetDone { client, server },
        3 => Message::Enter { client, key: own_key(fields, client)?, mask: mask(fields)? },
        4 => Message::Entered { client, tag: tag_from_1(fields)? },
        5 => Message::WhichKeys { client },
        6 => keys(fields, client)?,
        7 => Message::Get { client, server, key: key(fields)? },
        8 => Message::Got { client, server, badge: badge(fields)?, setpoint: fields.field(32)? },
        9 => Message::GetAll { client, server },
        10 => Message::All { client, server, versions: entries(fields, version)? },
        11 => Message::GetLog { client },
        12 => Message::Log { client, entries: entries(fields, entry)? },
        _ => unreachable!("kinds are 1 to 12"),
    })
}

/// "a key of count 0 with a panel above 0" is broken.
fn key(fields: &mut BitReader) -> Result<Key, Refusal> {
    let count = fields.field(8)? as u8;
    let client = fields.field(4)? as u8;
    check(count > 0 || client == 0)?;
    Ok(Key { count, client })
}

/// "In kinds 1 and 3 the key's panel is the header's and its count at least 1."
fn own_key(fields: &mut BitReader, header: u8) -> Result<Key, Refusal> {
    let count = fields.field(8)? as u8;
    check(count >= 1)?;
    let client = fields.field(4)? as u8;
    check(client == header)?;
    Ok(Key { count, client })
}

/// A "16-bit badge number, 0 allowed": none is wrong.
fn badge(fields: &mut BitReader) -> Result<u16, Refusal> {
    Ok(fields.field(16)? as u16)
}

/// "A zero mask is broken."
fn mask(fields: &mut BitReader) -> Result<u32, Refusal> {
    let mask = fields.field(16)?;
    check(mask != 0)?;
    Ok(mask)
}

fn tag_from_1(fields: &mut BitReader) -> Result<u8, Refusal> {
    let tag = fields.field(8)?;
    check(tag >= 1)?;
    Ok(tag as u8)
}

fn keys(fields: &mut BitReader, client: u8) -> Result<Message, Refusal> {
    let tag = fields.field(8)? as u8;
    let number = fields.field(5)? as usize;
    check((1..=MOST_KEYS).contains(&number))?;
    let keys = (0..number).map(|_| latest(fields)).collect::<Result<_, _>>()?;
    Ok(Message::Keys { client, tag, keys })
}

/// "an 8-bit tag after each key": any, whatever the frame's own.
fn latest(fields: &mut BitReader) -> Result<Latest, Refusal> {
    Ok(Latest { key: key(fields)?, tag: fields.field(8)? as usize })
}

/// "n-1 in 8, n times" an entry.
fn entries<T>(fields: &mut BitReader, entry: fn(&mut BitReader) -> Result<T, Refusal>) -> Result<Vec<T>, Refusal> {
    let number = fields.field(8)? + 1;
    (0..number).map(|_| entry(fields)).collect()
}

/// "Version records hold [the badge] after the key, as do frame kinds 1 and 10".
fn version(fields: &mut BitReader) -> Result<Version, Refusal> {
    Ok(Version { key: key(fields)?, badge: badge(fields)?, setpoint: fields.field(32)? })
}

fn entry(fields: &mut BitReader) -> Result<Entry, Refusal> {
    Ok(Entry { key: key(fields)?, mask: mask(fields)? })
}
