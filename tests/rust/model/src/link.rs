//! What a link (panel, target) holds: nothing, a request or a reply with its contents; or what it held was lost.

use crate::key::{Entry, Key, Latest, Version};

/// What a client sends.
#[derive(Clone, Debug, PartialEq, Eq)]
pub enum Request {
    Set { key: Key, badge: u16, setpoint: u32 },
    Enter { key: Key, mask: u32 },
    WhichKeys,
    Get { key: Key },
    GetAll,
    GetLog,
}

/// What it gets back. Lists are copies of the moment of answering.
#[derive(Clone, Debug, PartialEq, Eq)]
pub enum Reply {
    SetDone,
    Entered { tag: usize },
    Keys { tag: usize, keys: Vec<Latest> },
    Got { badge: u16, setpoint: u32 },
    All { versions: Vec<Version> },
    Log { entries: Vec<Entry> },
}

#[derive(Clone, Debug, Default, PartialEq, Eq)]
pub enum Link {
    #[default]
    Nothing,
    Request(Request),
    Reply(Reply),
    /// "A lost link is a fourth link content": the panel still waits for it.
    Lost,
}
