//! The lent tables of words, seen as rows (docs/DECISIONS.md, "State").

use std::mem::size_of;
use std::slice::from_raw_parts_mut;
use words::layout;

#[repr(C)]
pub struct Counts {
    pub method: u32,
    pub servers: u32,
    pub clients: u32,
    pub step: u32,
    pub entries: u32,
    pub writes: u32,
    pub reads: u32,
    pub held: [u32; 16],
}

#[repr(C)]
pub struct Client {
    pub state: u32,
    pub count: u32,
    pub mask: u32,
    pub tag: u32,
    pub record: u32,
    pub setpoints: [u32; 16],
    pub received: [u32; 17],
    pub tags: [u32; 16],
    pub badges: [u32; 16],
    pub write_badge: u32,
    pub asked: [u32; 16],
}

#[repr(C)]
#[derive(Clone, Copy)]
pub struct Link {
    pub kind: u32,
    pub key: u32,
    pub number: u32,
    pub badge: u32,
}

pub type Links = [Link; 17];
pub type Versions = [u32; 256];

/// What a version has beside its key.
#[repr(C)]
#[derive(Clone, Copy)]
pub struct Value {
    pub badge: u32,
    pub setpoint: u32,
}

pub type Values = [Value; 256];

#[repr(C)]
#[derive(Clone, Copy)]
pub struct Entry {
    pub key: u32,
    pub mask: u32,
}

pub type Log = [Entry; 256];

/// A WRITE's or a READ's record; `what` is the count or the mask.
#[repr(C)]
#[derive(Clone, Copy)]
pub struct Record {
    pub client: u32,
    pub what: u32,
    pub tag: u32,
    pub begin: u32,
    pub end: u32,
    pub badge: u32,
}

pub type Records = [Record; 255];

// The rows are as wide as the tables have them.
const _: () = {
    assert!(size_of::<Counts>() == 4 * layout::COUNTS_WORDS);
    assert!(size_of::<Client>() == 4 * layout::CLIENT_WORDS);
    assert!(size_of::<Links>() == 4 * layout::LINK_WORDS * layout::LINKS_OF_CLIENT);
    assert!(size_of::<Versions>() == 4 * layout::VERSIONS_OF_SERVER);
    assert!(size_of::<Values>() == 4 * layout::VALUE_WORDS * layout::VERSIONS_OF_SERVER);
    assert!(size_of::<Log>() == 4 * layout::LOG_WORDS * layout::LOG_ENTRIES);
    assert!(size_of::<Records>() == 4 * layout::RECORD_WORDS * layout::RECORDS);
};

/// Kinds of what a link holds.
pub const NOTHING: u32 = layout::NOTHING;
pub const REQUEST: u32 = layout::REQUEST;
pub const REPLY: u32 = layout::REPLY;
pub const LOST: u32 = layout::LOST;
/// The target that is no server.
pub const HEAD: usize = 16;

pub const EMPTY: Link = Link { kind: NOTHING, key: 0, number: 0, badge: 0 };
/// A request that carries nothing.
pub const PLAIN_REQUEST: Link = Link { kind: REQUEST, ..EMPTY };

/// States of a client.
pub const IDLE: u32 = 0;
pub const WRITING: u32 = 1;
pub const ENTERING: u32 = 2;
pub const ASKING_KEYS: u32 = 3;
pub const ASKING_SETPOINTS: u32 = 4;
pub const ASKING_ALL: u32 = 5;

/// Answers to a delivered reply, with a tag added; below 256 is a refusal.
pub const WAIT: u64 = 1 << 32;
pub const NEXT: u64 = 2 << 32;
pub const WRITE: u64 = 3 << 32;
pub const READ: u64 = 4 << 32;

/// Sound tables, each as long as its press has rows.
pub struct Sound<'a> {
    pub counts: &'a mut Counts,
    pub clients: &'a mut [Client],
    pub links: &'a mut [Links],
    pub keys: &'a mut [Versions],
    pub values: &'a mut [Values],
    pub log: &'a mut Log,
    pub writes: &'a mut Records,
    pub reads: &'a mut Records,
}

impl Sound<'_> {
    /// The tables at these places: counts, clients, links, keys, values, log, writes and reads.
    ///
    /// # Safety
    /// They are sound.
    #[inline(always)]
    pub unsafe fn at<'a>(places: [*mut u32; 8]) -> Sound<'a> {
        let [counts, clients, links, keys, values, log, writes, reads] = places;
        let counts = &mut *counts.cast::<Counts>();
        let (panels, servers) = (counts.clients as usize, counts.servers as usize);
        Sound {
            counts,
            clients: from_raw_parts_mut(clients.cast(), panels),
            links: from_raw_parts_mut(links.cast(), panels),
            keys: from_raw_parts_mut(keys.cast(), servers),
            values: from_raw_parts_mut(values.cast(), servers),
            log: &mut *log.cast(),
            writes: &mut *writes.cast(),
            reads: &mut *reads.cast(),
        }
    }
}

/// The servers of a mask, rising.
#[inline(always)]
pub fn each_server(mask: u32) -> impl Iterator<Item = usize> {
    let mut left = mask;
    std::iter::from_fn(move || {
        let server = left.trailing_zeros() as usize & 15;
        (left != 0).then(|| {
            left &= left - 1;
            server
        })
    })
}
