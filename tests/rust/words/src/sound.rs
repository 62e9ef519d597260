//! "Sound tables", condition by condition, on words.

use crate::layout::*;
use model::key::has_server;
use model::COORDINATOR;

/// The press that the counts name.
struct Press {
    method: u32,
    servers: usize,
    clients: usize,
}

impl Press {
    /// "every number in its range": method, k and p as an opening wants them.
    fn of(tables: &Tables) -> Option<Press> {
        if tables.counts.len() < COUNTS_WORDS {
            return None;
        }
        let method = tables.counts[METHOD];
        let (servers, clients) = (tables.count(SERVERS), tables.count(CLIENTS));
        let fewest = if method == 1 { 2 } else { 1 };
        let fits = (1..=3).contains(&method) && (1..=16).contains(&servers) && (fewest..=16).contains(&clients);
        fits.then_some(Press { method, servers, clients })
    }

    fn all_servers(&self) -> u32 {
        (1 << self.servers) - 1
    }

    /// A key is (0, 0), or has a count of 1 to 255 and a client below p.
    fn key(&self, word: u32) -> bool {
        word == 0 || ((256..65536).contains(&word) && ((word % 256) as usize) < self.clients)
    }

    /// A mask of at least one server, and of none beyond k.
    fn mask(&self, word: u32) -> bool {
        (1..=self.all_servers()).contains(&word)
    }

    /// "A panel's state is one its method and part allow."
    fn state(&self, client: usize, state: u32) -> bool {
        match self.method {
            1 if client == 0 => matches!(state, 0 | 4),
            1 => state <= 2,
            2 => state <= 4,
            _ => matches!(state, 0 | 1 | 2 | 5),
        }
    }
}

/// "Long enough", for this k and p.
pub fn long_enough(tables: &Tables, servers: usize, clients: usize) -> bool {
    tables.lengths().iter().zip(needed(servers, clients)).all(|(&length, needed)| length >= needed)
}

/// Whether the tables are sound.
pub fn sound(tables: &Tables) -> bool {
    let Some(press) = Press::of(tables) else {
        return false;
    };
    long_enough(tables, press.servers, press.clients)
        && scalars(tables, &press)
        && (0..press.servers).all(|server| versions(tables, &press, server))
        && log(tables, &press)
        && records(tables, &press)
        && (0..press.clients).all(|client| client_sound(tables, &press, client))
        && counted(tables, &press)
}

fn scalars(tables: &Tables, press: &Press) -> bool {
    tables.counts[STEP] >= 1
        && (1..=LOG_ENTRIES).contains(&tables.count(ENTRIES))
        && tables.count(WRITES) <= RECORDS
        && tables.count(READS) <= RECORDS
        && (0..press.servers).all(|server| (1..=VERSIONS_OF_SERVER).contains(&tables.count(HELD + server)))
}

/// "every number in its range": a badge has 16 bits.
fn badge(word: u32) -> bool {
    word < BADGES_BELOW
}

/// "each station's first version bears the opening's key"; its badge is any.
fn versions(tables: &Tables, press: &Press, server: usize) -> bool {
    let held = tables.count(HELD + server);
    let keys = &tables.keys[VERSIONS_OF_SERVER * server..][..held];
    keys[0] == 0 && keys.iter().all(|&key| press.key(key)) && (0..held).all(|place| badge(tables.value(server, place)[0]))
}

/// "tag 0 holds it with all k stations"
fn log(tables: &Tables, press: &Press) -> bool {
    let entry_sound = |tag| {
        let entry = tables.entry(tag);
        press.key(entry[0]) && press.mask(entry[1])
    };
    tables.entry(0) == [0, press.all_servers()] && (0..tables.count(ENTRIES)).all(entry_sound)
}

/// The records' numbers in their ranges; begin and end are any, and so is a READ's word in the place of a badge.
fn records(tables: &Tables, press: &Press) -> bool {
    let owner = |record: &[u32]| (record[0] as usize) < press.clients;
    let tag = |record: &[u32]| (record[2] as usize) < tables.count(ENTRIES);
    let write = |place| {
        let record = tables.write(place);
        owner(record) && (1..=255).contains(&record[1]) && tag(record) && badge(record[RECORD_BADGE])
    };
    let read = |place| {
        let record = tables.read(place);
        owner(record) && press.mask(record[1]) && tag(record)
    };
    (0..tables.count(WRITES)).all(write) && (0..tables.count(READS)).all(read)
}

/// "all counts together at most 255"; "as many WRITE records as all counts together"
fn counted(tables: &Tables, press: &Press) -> bool {
    let total: usize = (0..press.clients).map(|client| tables.client(client)[COUNT] as usize).sum();
    total == tables.count(WRITES)
}

fn client_sound(tables: &Tables, press: &Press, client: usize) -> bool {
    let row = tables.client(client);
    let (state, count, mask) = (row[STATE], row[COUNT], row[MASK]);
    press.state(client, state)
        && count <= 255
        && (count >= 1 || !matches!(state, 1 | 2))
        && (press.mask(mask) || (state == 0 && mask == 0))
        && (row[TAG] as usize) < tables.count(ENTRIES)
        && (0..press.servers).all(|server| (row[TAGS + server] as usize) < tables.count(ENTRIES))
        && (0..press.servers).all(|server| badge(row[BADGES + server]))
        && badge(row[WRITE_BADGE])
        && (0..press.servers).all(|server| asked_sound(press, row, server))
        && (0..LINKS_OF_CLIENT).all(|target| link_sound(tables, press, client, target))
        && (0..LINKS_OF_CLIENT).all(|target| received_sound(tables, client, target))
        && waits(tables, client)
        && in_progress(tables, client)
}

/// "in state 4, the keys it asks for", of each station that it asks; what stands there else is free.
fn asked_sound(press: &Press, row: &[u32], server: usize) -> bool {
    row[STATE] != 4 || !has_server(row[MASK], server) || press.key(row[ASKED + server])
}

fn link_empty(tables: &Tables, client: usize, target: usize) -> bool {
    tables.link(client, target)[0] == NOTHING
}

/// Whether a state sends to this target.
fn sends_to(row: &[u32], target: usize) -> bool {
    let masked = target < COORDINATOR && has_server(row[MASK], target);
    match row[STATE] {
        1 | 4 => masked,
        2 | 3 => target == COORDINATOR,
        5 => masked || target == COORDINATOR,
        _ => false,
    }
}

/// "Its links hold only what that state sends or gets back."
fn link_sound(tables: &Tables, press: &Press, client: usize, target: usize) -> bool {
    let row = tables.client(client);
    let link = tables.link(client, target);
    match link[0] {
        NOTHING => true,
        REQUEST => sends_to(row, target) && request_sound(press, client, row[STATE], link),
        REPLY => sends_to(row, target) && reply_sound(tables, row[STATE], target, link),
        // "sound wherever the panel waits for that link"
        LOST => sends_to(row, target),
        _ => false,
    }
}

/// A request's contents: only sets, enters and gets carry any.
fn request_sound(press: &Press, client: usize, state: u32, link: &[u32]) -> bool {
    let own_key = (256..65536).contains(&link[1]) && link[1] as usize % 256 == client;
    match state {
        1 => own_key && badge(link[LINK_BADGE]),
        2 => own_key && press.mask(link[2]),
        4 => press.key(link[1]),
        _ => true,
    }
}

/// A reply's contents: a tag of at least 1 within the log, or an n of at least 1 and no more than is held, or a badge.
fn reply_sound(tables: &Tables, state: u32, target: usize, link: &[u32]) -> bool {
    let entries = tables.count(ENTRIES);
    let number = link[2] as usize;
    match state {
        2 => (1..entries).contains(&number),
        3 => (1..=entries).contains(&number),
        4 => badge(link[LINK_BADGE]),
        5 if target == COORDINATOR => (1..=entries).contains(&number),
        5 => (1..=tables.count(HELD + target)).contains(&number),
        _ => true,
    }
}

/// "a panel's [n is] above 0 exactly in state 5 for the masked stations and head whose link is empty"
fn received_sound(tables: &Tables, client: usize, target: usize) -> bool {
    let row = tables.client(client);
    let received = row[RECEIVED + target] as usize;
    let arrived = row[STATE] == 5 && sends_to(row, target) && link_empty(tables, client, target);
    if !arrived {
        return received == 0;
    }
    let held = if target == COORDINATOR { tables.count(ENTRIES) } else { tables.count(HELD + target) };
    (1..=held).contains(&received)
}

/// "a busy panel has a link not empty"; "2 or 3, exactly the head"
fn waits(tables: &Tables, client: usize) -> bool {
    let idle = tables.client(client)[STATE] == 0;
    idle || (0..LINKS_OF_CLIENT).any(|target| !link_empty(tables, client, target))
}

/// "a busy panel has ... exactly one record without an end, of the kind it is doing, an idle panel none"; its row has the place.
fn in_progress(tables: &Tables, client: usize) -> bool {
    let open = |record: &[u32]| record[0] as usize == client && record[4] == 0;
    let writes: Vec<usize> = (0..tables.count(WRITES)).filter(|&place| open(tables.write(place))).collect();
    let reads: Vec<usize> = (0..tables.count(READS)).filter(|&place| open(tables.read(place))).collect();
    let row = tables.client(client);
    let place = row[RECORD] as usize;
    match row[STATE] {
        0 => writes.is_empty() && reads.is_empty(),
        1 | 2 => writes == [place] && reads.is_empty(),
        _ => reads == [place] && writes.is_empty(),
    }
}
