//! Messages by their kind. Numbers may be too large for their fields: then the message is not writable.

use model::{Entry, Key, Latest, Version};

#[derive(Clone, Debug, PartialEq, Eq)]
pub enum Message {
    Set { client: u8, server: u8, key: Key, badge: u16, setpoint: u32 },
    SetDone { client: u8, server: u8 },
    Enter { client: u8, key: Key, mask: u32 },
    Entered { client: u8, tag: u8 },
    WhichKeys { client: u8 },
    Keys { client: u8, tag: u8, keys: Vec<Latest> },
    Get { client: u8, server: u8, key: Key },
    Got { client: u8, server: u8, badge: u16, setpoint: u32 },
    GetAll { client: u8, server: u8 },
    All { client: u8, server: u8, versions: Vec<Version> },
    GetLog { client: u8 },
    Log { client: u8, entries: Vec<Entry> },
}

/// The number of kinds, which are 1 to 12.
pub const KINDS: u32 = 12;
/// Most keys of a keys reply, and most entries of all and log.
pub const MOST_KEYS: usize = 16;
pub const MOST_ENTRIES: usize = 256;
/// The head's target.
pub const HEAD: u32 = 16;

/// Whether the target of a kind is a station, by the table of kinds.
pub fn to_server(kind: u32) -> bool {
    matches!(kind, 1 | 2 | 7 | 8 | 9 | 10)
}

impl Message {
    pub fn kind(&self) -> u32 {
        match self {
            Message::Set { .. } => 1,
            Message::SetDone { .. } => 2,
            Message::Enter { .. } => 3,
            Message::Entered { .. } => 4,
            Message::WhichKeys { .. } => 5,
            Message::Keys { .. } => 6,
            Message::Get { .. } => 7,
            Message::Got { .. } => 8,
            Message::GetAll { .. } => 9,
            Message::All { .. } => 10,
            Message::GetLog { .. } => 11,
            Message::Log { .. } => 12,
        }
    }

    pub fn client(&self) -> u8 {
        match *self {
            Message::Set { client, .. }
            | Message::SetDone { client, .. }
            | Message::Enter { client, .. }
            | Message::Entered { client, .. }
            | Message::WhichKeys { client }
            | Message::Keys { client, .. }
            | Message::Get { client, .. }
            | Message::Got { client, .. }
            | Message::GetAll { client, .. }
            | Message::All { client, .. }
            | Message::GetLog { client }
            | Message::Log { client, .. } => client,
        }
    }

    /// The station, or 16 for the head.
    pub fn target(&self) -> u32 {
        match *self {
            Message::Set { server, .. }
            | Message::SetDone { server, .. }
            | Message::Get { server, .. }
            | Message::Got { server, .. }
            | Message::GetAll { server, .. }
            | Message::All { server, .. } => u32::from(server),
            _ => HEAD,
        }
    }
}
