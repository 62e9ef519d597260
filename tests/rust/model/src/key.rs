//! Keys, and the two kinds of row that bear one: a station's versions and the entries of the log.

/// "A key is (count, panel)."
#[derive(Clone, Copy, Debug, PartialEq, Eq)]
pub struct Key {
    pub count: u8,
    pub client: u8,
}

impl Key {
    /// "the opening's own key is (0, 0), the only key of count 0"
    pub const OPENING: Key = Key { count: 0, client: 0 };

    /// As one number: "256 times its count plus its client", as the tables and the entries of frames hold it when lent.
    pub fn word(self) -> u32 {
        256 * u32::from(self.count) + u32::from(self.client)
    }

    /// The key of such a number, which is one of a key in its range.
    pub fn of_word(word: u32) -> Key {
        Key { count: (word / 256) as u8, client: (word % 256) as u8 }
    }
}

/// One record of a station's versions: "Version records hold [the badge] after the key".
#[derive(Clone, Copy, Debug, PartialEq, Eq)]
pub struct Version {
    pub key: Key,
    pub badge: u16,
    pub setpoint: u32,
}

/// One entry of the log; its place is its tag.
#[derive(Clone, Copy, Debug, PartialEq, Eq)]
pub struct Entry {
    pub key: Key,
    pub mask: u32,
}

/// "bit i (worth 2^i) is station i"
pub fn has_server(mask: u32, server: usize) -> bool {
    mask >> server & 1 == 1
}

/// The servers of a mask, rising.
pub fn servers_of(mask: u32) -> impl Iterator<Item = usize> {
    (0..16).filter(move |&server| has_server(mask, server))
}

/// What the search back through the log gives: an entry's key, and its tag.
#[derive(Clone, Copy, Debug, PartialEq, Eq)]
pub struct Latest {
    pub key: Key,
    pub tag: usize,
}

/// "The key of station i at tag t is that of the latest log entry, at t or before it, whose mask has i."
/// The caller's log has an entry of all stations at tag 0, so there is one.
pub fn latest(log: &[Entry], server: usize, tag: usize) -> Latest {
    let mut entries = log[..=tag].iter();
    let tag = entries.rposition(|entry| has_server(entry.mask, server)).expect("tag 0 has all stations");
    Latest { key: log[tag].key, tag }
}

/// The first tag whose entry bears a key.
pub fn first_tag_of(log: &[Entry], key: Key) -> Option<usize> {
    log.iter().position(|entry| entry.key == key)
}

/// "A key is looked up as the first version that bears it."
pub fn version_of(versions: &[Version], key: Key) -> Option<Version> {
    versions.iter().copied().find(|version| version.key == key)
}
