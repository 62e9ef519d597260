//! The eight lent tables.

/// The tables to read, in the order of the exported functions: counts, clients, links, keys, values, log, writes, reads.
pub type Lent<'a> = [&'a [u32]; 8];

/// The same to change.
pub type LentMut<'a> = [&'a mut [u32]; 8];

/// Tables of one's own. An opening writes what must stand in them.
#[derive(Clone, Debug, PartialEq, Eq)]
pub struct Tables {
    words: [Vec<u32>; 8],
}

impl Tables {
    /// As long as so many servers and clients need.
    pub fn new(servers: usize, clients: usize) -> Tables {
        let lengths = [23, 87 * clients, 4 * 17 * clients, 256 * servers, 2 * 256 * servers, 2 * 256, 6 * 255, 6 * 255];
        Tables { words: lengths.map(|length| vec![0; length]) }
    }

    pub fn lent(&self) -> Lent<'_> {
        self.words.each_ref().map(Vec::as_slice)
    }

    pub fn lent_mut(&mut self) -> LentMut<'_> {
        self.words.each_mut().map(Vec::as_mut_slice)
    }

    /// The mask of a client's transaction, the last one where it is idle.
    pub fn mask(&self, client: usize) -> u32 {
        self.words[1][87 * client + 2]
    }
}
