//! The opening, on any tables.

use words::layout::{needed, COUNTS_WORDS, HELD, VALUE_WORDS, VERSIONS_OF_SERVER};

/// The tables that an opening sets words of; it asks of the records alone how long they are.
pub struct Opened<'a> {
    pub counts: &'a mut [u32],
    pub clients: &'a mut [u32],
    pub links: &'a mut [u32],
    pub keys: &'a mut [u32],
    pub values: &'a mut [u32],
    pub log: &'a mut [u32],
    pub records: [usize; 2],
}

#[inline(always)]
pub fn open(t: Opened, method: u32, servers: u32, clients: u32, setpoints: &[u32]) -> u32 {
    let fits = (2..=3).contains(&method) && (1..=16).contains(&servers) && (1..=16).contains(&clients);
    if !fits || setpoints.len() != servers as usize {
        return 1;
    }
    let [writes, reads] = t.records;
    let lengths = [t.counts.len(), t.clients.len(), t.links.len(), t.keys.len(), t.values.len(), t.log.len(), writes, reads];
    if lengths.iter().zip(needed(servers as usize, clients as usize)).any(|(&length, needed)| length < needed) {
        return 2;
    }
    t.clients.fill(0);
    t.links.fill(0);
    t.counts.fill(0);
    // Method, servers, clients, step 1, one entry, no WRITE, no READ.
    t.counts[..HELD].copy_from_slice(&[method, servers, clients, 1, 1, 0, 0]);
    t.counts[HELD..COUNTS_WORDS][..setpoints.len()].fill(1);
    let (keys, values) =
        (t.keys.chunks_exact_mut(VERSIONS_OF_SERVER), t.values.chunks_exact_mut(VALUE_WORDS * VERSIONS_OF_SERVER));
    for ((keys, values), &setpoint) in keys.zip(values).zip(setpoints) {
        keys[0] = 0;
        values[..VALUE_WORDS].copy_from_slice(&[0, setpoint]);
    }
    t.log[..2].copy_from_slice(&[0, (1 << servers) - 1]);
    0
}
