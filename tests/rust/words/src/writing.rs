//! The words that a step of the model changes. Versions, entries, records and links that stay are not written, so what no
//! part of the store stands for keeps what it held.

use crate::layout::*;
use model::{Client, Link, ReadRecord, Reply, Request, Store, Version, WriteRecord, COORDINATOR};

/// An opening: every word of the counts, clients and links; place 0 of the used servers' versions and of the log.
pub fn write_opening(tables: &mut Tables, store: &Store) {
    for table in [&mut tables.counts, &mut tables.clients, &mut tables.links] {
        table.fill(0);
    }
    write_counts(tables, store);
    for (server, held) in store.servers.iter().enumerate() {
        write_version(tables, server, 0, held[0]);
    }
    write_entry(tables, store, 0);
}

/// What an accepted step other than an opening changed.
pub fn write_changes(tables: &mut Tables, before: &Store, after: &Store) {
    write_counts(tables, after);
    for (server, held) in after.servers.iter().enumerate() {
        for (place, &version) in held.iter().enumerate().skip(before.servers[server].len()) {
            write_version(tables, server, place, version);
        }
    }
    for tag in before.log.len()..after.log.len() {
        write_entry(tables, after, tag);
    }
    for (client, now) in after.clients.iter().enumerate() {
        write_client(tables, client, &before.clients[client], now);
    }
    for (place, record) in after.writes.iter().enumerate() {
        if before.writes.get(place) != Some(record) {
            put(&mut tables.writes, RECORD_WORDS * place, &write_words(record));
        }
    }
    for (place, record) in after.reads.iter().enumerate() {
        if before.reads.get(place) != Some(record) {
            put(&mut tables.reads, RECORD_WORDS * place, &read_words(record));
        }
    }
    // A READ has no badge: its record's last word is written with it, as 0, and kept from then on.
    for place in before.reads.len()..after.reads.len() {
        tables.reads[RECORD_WORDS * place + RECORD_BADGE] = 0;
    }
}

fn put(table: &mut [u32], place: usize, words: &[u32]) {
    table[place..place + words.len()].copy_from_slice(words);
}

fn write_counts(tables: &mut Tables, store: &Store) {
    let scalars = [
        store.method as u32,
        store.servers.len() as u32,
        store.clients.len() as u32,
        store.step,
        store.log.len() as u32,
        store.writes.len() as u32,
        store.reads.len() as u32,
    ];
    put(&mut tables.counts, 0, &scalars);
    for (server, held) in store.servers.iter().enumerate() {
        tables.counts[HELD + server] = held.len() as u32;
    }
}

fn write_version(tables: &mut Tables, server: usize, place: usize, version: Version) {
    tables.keys[VERSIONS_OF_SERVER * server + place] = version.key.word();
    put(&mut tables.values, value_place(server, place), &[u32::from(version.badge), version.setpoint]);
}

fn write_entry(tables: &mut Tables, store: &Store, tag: usize) {
    let entry = store.log[tag];
    put(&mut tables.log, LOG_WORDS * tag, &[entry.key.word(), entry.mask]);
}

fn write_words(record: &WriteRecord) -> [u32; RECORD_WORDS] {
    let WriteRecord { client, count, tag, begin, end, badge } = *record;
    [client as u32, u32::from(count), tag as u32, begin, end.unwrap_or(0), u32::from(badge)]
}

/// All but the word in the place of a badge.
fn read_words(record: &ReadRecord) -> [u32; RECORD_BADGE] {
    let ReadRecord { client, mask, tag, begin, end } = *record;
    [client as u32, mask, tag as u32, begin, end.unwrap_or(0)]
}

fn write_client(tables: &mut Tables, client: usize, before: &Client, after: &Client) {
    let row = client_words(after);
    put(&mut tables.clients, CLIENT_WORDS * client, &row);
    for target in 0..LINKS_OF_CLIENT {
        if before.links[target] != after.links[target] {
            put(&mut tables.links, link_place(client, target), &link_words(&after.links[target]));
        }
    }
}

fn client_words(client: &Client) -> [u32; CLIENT_WORDS] {
    let mut row = [0; CLIENT_WORDS];
    row[STATE] = client.state as u32;
    row[COUNT] = u32::from(client.count);
    row[MASK] = client.mask;
    row[TAG] = client.tag as u32;
    row[RECORD] = client.record as u32;
    row[SETPOINTS..RECEIVED].copy_from_slice(&client.setpoints);
    for (server, received) in client.versions.iter().enumerate() {
        row[RECEIVED + server] = received.len() as u32;
    }
    row[RECEIVED + COORDINATOR] = client.log.len() as u32;
    for (server, &tag) in client.tags.iter().enumerate() {
        row[TAGS + server] = tag as u32;
    }
    row[BADGES..WRITE_BADGE].copy_from_slice(&client.badges);
    row[WRITE_BADGE] = u32::from(client.badge);
    row[ASKED..].copy_from_slice(&client.asked);
    row
}

fn link_words(link: &Link) -> [u32; LINK_WORDS] {
    match link {
        Link::Nothing => [NOTHING, 0, 0, 0],
        Link::Request(request) => {
            let (key, number, badge) = request_words(request);
            [REQUEST, key, number, badge]
        }
        Link::Reply(reply) => [REPLY, 0, reply_number(reply), reply_badge(reply)],
        Link::Lost => [LOST, 0, 0, 0],
    }
}

/// "what a message does not carry is written as 0"
fn request_words(request: &Request) -> (u32, u32, u32) {
    match *request {
        Request::Set { key, badge, setpoint } => (key.word(), setpoint, u32::from(badge)),
        Request::Enter { key, mask } => (key.word(), mask, 0),
        Request::Get { key } => (key.word(), 0, 0),
        Request::WhichKeys | Request::GetAll | Request::GetLog => (0, 0, 0),
    }
}

fn reply_badge(reply: &Reply) -> u32 {
    match reply {
        Reply::Got { badge, .. } => u32::from(*badge),
        _ => 0,
    }
}

fn reply_number(reply: &Reply) -> u32 {
    let number = match reply {
        Reply::SetDone => 0,
        Reply::Entered { tag } => *tag,
        Reply::Keys { tag, .. } => tag + 1,
        Reply::Got { setpoint, .. } => *setpoint as usize,
        Reply::All { versions } => versions.len(),
        Reply::Log { entries } => entries.len(),
    };
    number as u32
}
