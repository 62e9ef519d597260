//! Where each word of the lent tables stands.

/// The eight tables, each one slice of 32-bit words.
#[derive(Clone, Debug, Default, PartialEq, Eq)]
pub struct Tables {
    pub counts: Vec<u32>,
    pub clients: Vec<u32>,
    pub links: Vec<u32>,
    pub keys: Vec<u32>,
    pub values: Vec<u32>,
    pub log: Vec<u32>,
    pub writes: Vec<u32>,
    pub reads: Vec<u32>,
}

/// Words of each table's row, and rows of a fixed number.
pub const COUNTS_WORDS: usize = 23;
pub const CLIENT_WORDS: usize = 87;
pub const LINK_WORDS: usize = 4;
pub const LINKS_OF_CLIENT: usize = 17;
pub const VERSIONS_OF_SERVER: usize = 256;
pub const VALUE_WORDS: usize = 2;
pub const LOG_WORDS: usize = 2;
pub const LOG_ENTRIES: usize = 256;
pub const RECORD_WORDS: usize = 6;
pub const RECORDS: usize = 255;

/// Places in the counts.
pub const METHOD: usize = 0;
pub const SERVERS: usize = 1;
pub const CLIENTS: usize = 2;
pub const STEP: usize = 3;
pub const ENTRIES: usize = 4;
pub const WRITES: usize = 5;
pub const READS: usize = 6;
pub const HELD: usize = 7;

/// Places in a client's row.
pub const STATE: usize = 0;
pub const COUNT: usize = 1;
pub const MASK: usize = 2;
pub const TAG: usize = 3;
pub const RECORD: usize = 4;
pub const SETPOINTS: usize = 5;
pub const RECEIVED: usize = 21;
pub const TAGS: usize = 38;
pub const BADGES: usize = 54;
pub const WRITE_BADGE: usize = 70;
pub const ASKED: usize = 71;

/// Places of begin and end in a record's words.
pub const RECORD_BEGIN: usize = 3;
pub const RECORD_END: usize = 4;

/// The place of the badge in a link's words and in a record's, and how many badges there are.
pub const LINK_BADGE: usize = 3;
pub const RECORD_BADGE: usize = 5;
pub const BADGES_BELOW: u32 = 65_536;

/// Kinds of what a link holds.
pub const NOTHING: u32 = 0;
pub const REQUEST: u32 = 1;
pub const REPLY: u32 = 2;
pub const LOST: u32 = 3;

/// The words that each table needs for k servers and p clients.
pub fn needed(servers: usize, clients: usize) -> [usize; 8] {
    [
        COUNTS_WORDS,
        CLIENT_WORDS * clients,
        LINK_WORDS * LINKS_OF_CLIENT * clients,
        VERSIONS_OF_SERVER * servers,
        VALUE_WORDS * VERSIONS_OF_SERVER * servers,
        LOG_WORDS * LOG_ENTRIES,
        RECORD_WORDS * RECORDS,
        RECORD_WORDS * RECORDS,
    ]
}

impl Tables {
    /// Tables of exactly the length that k servers and p clients need, every word the same.
    pub fn filled(servers: usize, clients: usize, word: u32) -> Tables {
        let mut tables = Tables::default();
        for (table, length) in tables.all_mut().into_iter().zip(needed(servers, clients)) {
            table.resize(length, word);
        }
        tables
    }

    /// All tables in a fixed order, for what goes over each of them.
    pub fn all_mut(&mut self) -> [&mut Vec<u32>; 8] {
        [
            &mut self.counts,
            &mut self.clients,
            &mut self.links,
            &mut self.keys,
            &mut self.values,
            &mut self.log,
            &mut self.writes,
            &mut self.reads,
        ]
    }

    /// The same to read.
    pub fn all(&self) -> [&Vec<u32>; 8] {
        [&self.counts, &self.clients, &self.links, &self.keys, &self.values, &self.log, &self.writes, &self.reads]
    }

    /// The words of each table, in the same order.
    pub fn lengths(&self) -> [usize; 8] {
        self.all().map(Vec::len)
    }

    pub fn count(&self, place: usize) -> usize {
        self.counts[place] as usize
    }

    pub fn client(&self, client: usize) -> &[u32] {
        &self.clients[CLIENT_WORDS * client..][..CLIENT_WORDS]
    }

    pub fn link(&self, client: usize, target: usize) -> &[u32] {
        &self.links[link_place(client, target)..][..LINK_WORDS]
    }

    /// A version's badge and setpoint.
    pub fn value(&self, server: usize, place: usize) -> &[u32] {
        &self.values[value_place(server, place)..][..VALUE_WORDS]
    }

    pub fn entry(&self, tag: usize) -> &[u32] {
        &self.log[LOG_WORDS * tag..][..LOG_WORDS]
    }

    pub fn write(&self, place: usize) -> &[u32] {
        &self.writes[RECORD_WORDS * place..][..RECORD_WORDS]
    }

    pub fn read(&self, place: usize) -> &[u32] {
        &self.reads[RECORD_WORDS * place..][..RECORD_WORDS]
    }
}

/// Links stand at 17 times the client plus the target.
pub fn link_place(client: usize, target: usize) -> usize {
    LINK_WORDS * (LINKS_OF_CLIENT * client + target)
}

/// The values of a server's versions stand at 256 times the server plus the version's place, badge first.
pub fn value_place(server: usize, place: usize) -> usize {
    VALUE_WORDS * (VERSIONS_OF_SERVER * server + place)
}
