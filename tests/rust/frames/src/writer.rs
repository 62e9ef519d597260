//! The frame writer.

use crate::bits::BitWriter;
use crate::check;
use crate::message::{to_server, Message, HEAD, MOST_ENTRIES, MOST_KEYS};
use model::{Key, Refusal};

/// The frame of a message; "message not writable" is 11.
pub fn write(message: &Message) -> Result<Vec<u8>, Refusal> {
    let mut fields = BitWriter::default();
    fields.field(message.kind(), 4)?;
    fields.field(u32::from(message.client()), 4)?;
    check(!to_server(message.kind()) || message.target() < HEAD)?;
    fields.field(message.target(), 5)?;
    body(&mut fields, message)?;
    Ok(fields.into_bytes())
}

fn body(fields: &mut BitWriter, message: &Message) -> Result<(), Refusal> {
    match message {
        Message::Set { client, key, badge, setpoint, .. } => {
            own_key(fields, *key, *client)?;
            value(fields, *badge, *setpoint)
        }
        Message::Enter { client, key, mask: stations } => {
            own_key(fields, *key, *client)?;
            mask(fields, *stations)
        }
        Message::Entered { tag, .. } => {
            check(*tag >= 1)?;
            fields.field(u32::from(*tag), 8)
        }
        Message::Keys { tag, keys, .. } => {
            check((1..=MOST_KEYS).contains(&keys.len()))?;
            fields.field(u32::from(*tag), 8)?;
            fields.field(keys.len() as u32, 5)?;
            keys.iter().try_for_each(|latest| {
                key(fields, latest.key)?;
                fields.field(latest.tag as u32, 8)
            })
        }
        Message::Get { key: asked, .. } => key(fields, *asked),
        Message::Got { badge, setpoint, .. } => value(fields, *badge, *setpoint),
        Message::All { versions, .. } => {
            number_of_entries(fields, versions.len())?;
            versions.iter().try_for_each(|version| {
                key(fields, version.key)?;
                value(fields, version.badge, version.setpoint)
            })
        }
        Message::Log { entries, .. } => {
            number_of_entries(fields, entries.len())?;
            entries.iter().try_for_each(|entry| {
                key(fields, entry.key)?;
                mask(fields, entry.mask)
            })
        }
        Message::SetDone { .. } | Message::WhichKeys { .. } | Message::GetAll { .. } | Message::GetLog { .. } => Ok(()),
    }
}

fn key(fields: &mut BitWriter, key: Key) -> Result<(), Refusal> {
    check(key.count > 0 || key.client == 0)?;
    fields.field(u32::from(key.count), 8)?;
    fields.field(u32::from(key.client), 4)
}

fn own_key(fields: &mut BitWriter, own: Key, header: u8) -> Result<(), Refusal> {
    check(own.count >= 1 && own.client == header)?;
    key(fields, own)
}

/// "kind 8 has it before the setpoint", and in kinds 1 and 10, where it stands "after the key", it does so too.
fn value(fields: &mut BitWriter, badge: u16, setpoint: u32) -> Result<(), Refusal> {
    fields.field(u32::from(badge), 16)?;
    fields.field(setpoint, 32)
}

fn mask(fields: &mut BitWriter, mask: u32) -> Result<(), Refusal> {
    check(mask != 0)?;
    fields.field(mask, 16)
}

fn number_of_entries(fields: &mut BitWriter, number: usize) -> Result<(), Refusal> {
    check((1..=MOST_ENTRIES).contains(&number))?;
    fields.field(number as u32 - 1, 8)
}
