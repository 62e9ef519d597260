//! Method C's choice of a tag, and what is shown at it.

use super::search::{latest_of_all, place_of};
use super::tables::{each_server, Client, Entry, Log, Value, Values, Versions, HEAD};

/// The tag, the setpoints and the badges at it go into the row; the tags of the setpoints are the answer. The newest tag nearly always
/// serves, and then each key is searched for once, for its value too.
#[inline(always)]
pub fn choose(row: &mut Client, keys: &[Versions], values: &[Values], log: &Log) -> [u32; 16] {
    // Sound tables have received no more entries than there are.
    let log = unsafe { log.get_unchecked(..row.received[HEAD] as usize) };
    keep(row, keys, values, log).unwrap_or_else(|| {
        let tag = greatest_tag(row, keys, log);
        keep(row, keys, values, &log[..=tag]).expect("the tag qualifies")
    })
}

/// Keeps what was received at the last of these entries, if all of it was.
#[inline(always)]
fn keep(row: &mut Client, keys: &[Versions], values: &[Values], log: &[Entry]) -> Option<[u32; 16]> {
    let (mut tags, mut wanted) = ([0; 16], [0; 16]);
    latest_of_all(log, row.mask, |server, tag, key| (tags[server], wanted[server]) = (tag, key));
    let mut found = [Value { badge: 0, setpoint: 0 }; 16];
    for server in each_server(row.mask) {
        // Sound tables have a row for each masked server.
        let (keys, values) = unsafe { (keys.get_unchecked(server), values.get_unchecked(server)) };
        let place = place_of(keys, row.received[server] as usize, wanted[server])?;
        found[server] = values[place & 255];
    }
    for server in each_server(row.mask) {
        row.setpoints[server] = found[server].setpoint;
        row.badges[server] = found[server].badge;
    }
    row.tag = log.len() as u32 - 1;
    Some(tags)
}

/// The versions received go once into a table of each key's holders; then the log is walked once.
#[cold]
#[inline(never)]
fn greatest_tag(row: &Client, keys: &[Versions], log: &[Entry]) -> usize {
    let slot = |key: u32| (key >> 8 << 4 | key & 15) as usize & 4095;
    let mut holders = [0u16; 4096];
    for server in each_server(row.mask) {
        // As above.
        let keys = unsafe { keys.get_unchecked(server) };
        for &key in &keys[..row.received[server] as usize] {
            holders[slot(key)] |= 1 << server;
        }
    }
    let (mut lacking, mut chosen) = (0, 0);
    for (tag, entry) in log.iter().enumerate() {
        let touched = entry.mask & row.mask;
        lacking = (lacking & !touched) | (touched & !u32::from(holders[slot(entry.key)]));
        if lacking == 0 {
            chosen = tag;
        }
    }
    chosen
}
