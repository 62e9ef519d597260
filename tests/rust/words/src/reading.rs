//! The model's store from sound tables.

use crate::layout::*;
use model::key::latest;
use model::{Client, Entry, Key, Link, Method, ReadRecord, Reply, Request, State, Store, Version, WriteRecord, COORDINATOR};

/// The store that sound tables hold.
pub fn store_of(tables: &Tables) -> Store {
    let servers: Vec<Vec<Version>> = (0..tables.count(SERVERS)).map(|server| versions(tables, server)).collect();
    let log: Vec<Entry> = (0..tables.count(ENTRIES)).map(|tag| entry(tables, tag)).collect();
    let clients = (0..tables.count(CLIENTS)).map(|client| client_of(tables, &servers, &log, client));
    Store {
        method: Method::from_number(tables.counts[METHOD]).expect("sound"),
        step: tables.counts[STEP],
        clients: clients.collect(),
        writes: (0..tables.count(WRITES)).map(|place| write_record(tables.write(place))).collect(),
        reads: (0..tables.count(READS)).map(|place| read_record(tables.read(place))).collect(),
        servers,
        log,
    }
}

fn versions(tables: &Tables, server: usize) -> Vec<Version> {
    let keys = &tables.keys[VERSIONS_OF_SERVER * server..];
    let version = |place: usize| {
        let value = tables.value(server, place);
        Version { key: Key::of_word(keys[place]), badge: badge_of(value[0]), setpoint: value[1] }
    };
    (0..tables.count(HELD + server)).map(version).collect()
}

fn badge_of(word: u32) -> u16 {
    u16::try_from(word).expect("sound tables have badges of 16 bits")
}

fn entry(tables: &Tables, tag: usize) -> Entry {
    let words = tables.entry(tag);
    Entry { key: Key::of_word(words[0]), mask: words[1] }
}

/// End 0 is "no end".
fn end_of(word: u32) -> Option<u32> {
    (word != 0).then_some(word)
}

fn write_record(words: &[u32]) -> WriteRecord {
    WriteRecord {
        client: words[0] as usize,
        count: words[1] as u8,
        tag: words[2] as usize,
        begin: words[3],
        end: end_of(words[4]),
        badge: badge_of(words[RECORD_BADGE]),
    }
}

fn read_record(words: &[u32]) -> ReadRecord {
    ReadRecord { client: words[0] as usize, mask: words[1], tag: words[2] as usize, begin: words[3], end: end_of(words[4]) }
}

fn state_of(word: u32) -> State {
    match word {
        0 => State::Idle,
        1 => State::WritingSetpoints,
        2 => State::WaitingForTag,
        3 => State::AskingCoordinator,
        4 => State::AskingSetpoints,
        5 => State::AskingAll,
        _ => unreachable!("sound tables have states 0 to 5"),
    }
}

fn client_of(tables: &Tables, servers: &[Vec<Version>], log: &[Entry], client: usize) -> Client {
    let row = tables.client(client);
    let received = &row[RECEIVED..TAGS];
    let mut found = Client {
        state: state_of(row[STATE]),
        count: row[COUNT] as u8,
        mask: row[MASK],
        tag: row[TAG] as usize,
        setpoints: row[SETPOINTS..RECEIVED].try_into().expect("16 setpoints"),
        tags: std::array::from_fn(|server| row[TAGS + server] as usize),
        badges: row[BADGES..WRITE_BADGE].try_into().expect("16 badges"),
        badge: badge_of(row[WRITE_BADGE]),
        asked: row[ASKED..CLIENT_WORDS].try_into().expect("16 keys"),
        log: log[..received[COORDINATOR] as usize].to_vec(),
        record: row[RECORD] as usize,
        ..Client::default()
    };
    for (server, held) in servers.iter().enumerate() {
        found.versions[server] = held[..received[server] as usize].to_vec();
    }
    for target in 0..LINKS_OF_CLIENT {
        found.links[target] = link_of(tables.link(client, target), found.state, target, servers, log);
    }
    found
}

/// What a link's words mean follows from the client's state and the target.
fn link_of(words: &[u32], state: State, target: usize, servers: &[Vec<Version>], log: &[Entry]) -> Link {
    match words[0] {
        NOTHING => Link::Nothing,
        REQUEST => Link::Request(request_of(words, state, target)),
        REPLY => Link::Reply(reply_of(words, state, target, servers, log)),
        LOST => Link::Lost,
        kind => unreachable!("sound tables have links of kinds 0 to 3, and not {kind}"),
    }
}

fn request_of(words: &[u32], state: State, target: usize) -> Request {
    let key = Key::of_word(words[1]);
    match state {
        State::WritingSetpoints => Request::Set { key, badge: badge_of(words[LINK_BADGE]), setpoint: words[2] },
        State::WaitingForTag => Request::Enter { key, mask: words[2] },
        State::AskingCoordinator => Request::WhichKeys,
        State::AskingSetpoints => Request::Get { key },
        State::AskingAll if target == COORDINATOR => Request::GetLog,
        State::AskingAll => Request::GetAll,
        State::Idle => unreachable!("an idle client's links are empty"),
    }
}

fn reply_of(words: &[u32], state: State, target: usize, servers: &[Vec<Version>], log: &[Entry]) -> Reply {
    let number = words[2];
    let first = number as usize;
    match state {
        State::WritingSetpoints => Reply::SetDone,
        State::WaitingForTag => Reply::Entered { tag: first },
        State::AskingCoordinator => {
            let tag = first - 1;
            let keys = (0..servers.len()).map(|server| latest(log, server, tag));
            Reply::Keys { tag, keys: keys.collect() }
        }
        State::AskingSetpoints => Reply::Got { badge: badge_of(words[LINK_BADGE]), setpoint: number },
        State::AskingAll if target == COORDINATOR => Reply::Log { entries: log[..first].to_vec() },
        State::AskingAll => Reply::All { versions: servers[target][..first].to_vec() },
        State::Idle => unreachable!("an idle client's links are empty"),
    }
}
