//! Whether lent tables are sound: faults are gathered without branches where rows are many, so that the compiler can use vectors.

use super::tables::*;
use std::arch::x86_64::*;
use std::slice::from_raw_parts;
use words::layout::{needed, BADGES_BELOW, COUNTS_WORDS};

/// The tables as they are lent, in the order of the exports.
pub type Lent<'a> = [&'a [u32]; 8];

#[inline(always)]
pub fn sound(tables: Lent) -> bool {
    let [counts, clients, links, keys, values, log, writes, reads] = tables;
    if counts.len() < COUNTS_WORDS {
        return false;
    }
    let counts = unsafe { &*counts.as_ptr().cast::<Counts>() };
    if !scalars_sound(counts) {
        return false;
    }
    let (servers, panels) = (counts.servers as usize, counts.clients as usize);
    let long_enough = tables.iter().zip(needed(servers, panels)).all(|(table, needed)| table.len() >= needed);
    if !long_enough || !counts.held[..servers].iter().all(|held| (1..=256).contains(held)) {
        return false;
    }
    // All lengths are known to be enough now.
    let clients = unsafe { from_raw_parts(clients.as_ptr().cast::<Client>(), panels) };
    let links = unsafe { from_raw_parts(links.as_ptr().cast::<Links>(), panels) };
    let keys = unsafe { from_raw_parts(keys.as_ptr().cast::<Versions>(), servers) };
    let values = unsafe { from_raw_parts(values.as_ptr().cast::<Values>(), servers) };
    let log = unsafe { from_raw_parts(log.as_ptr().cast::<Entry>(), counts.entries as usize) };
    let writes = unsafe { from_raw_parts(writes.as_ptr().cast::<Record>(), counts.writes as usize) };
    let reads = unsafe { from_raw_parts(reads.as_ptr().cast::<Record>(), counts.reads as usize) };
    let all = (1 << counts.servers) - 1;
    versions_sound(counts, keys)
        && values_sound(counts, values)
        && log[0].key == 0
        && log[0].mask == all
        && log_sound(log, counts.clients, all)
        && clients_sound(counts, clients, links, all).is_some_and(|[writing, reading]| {
            records_sound::<true>(writes, clients, 255, counts.entries, writing)
                && records_sound::<false>(reads, clients, all, counts.entries, reading)
        })
}

#[inline(always)]
fn scalars_sound(counts: &Counts) -> bool {
    let fewest = if counts.method == 1 { 2 } else { 1 };
    (1..=3).contains(&counts.method)
        && (1..=16).contains(&counts.servers)
        && (fewest..=16).contains(&counts.clients)
        && counts.step >= 1
        && (1..=256).contains(&counts.entries)
        && counts.writes <= 255
        && counts.reads <= 255
}

/// Whether the word is no key: not 0, and not a count of 1 to 255 with a client below p.
#[inline(always)]
fn key_fault(word: u32, p: u32) -> bool {
    let low = (word & 255) as i32 >= p as i32;
    let none = word != 0 && (word as i32) < 256;
    low | none | (word >> 16 != 0)
}

/// Eight keys at a time, as the 16-bit halves of a vector; what must be 0 above them is gathered apart.
#[inline(always)]
fn versions_sound(counts: &Counts, keys: &[Versions]) -> bool {
    let p = counts.clients;
    // SSE2 is on every x86-64 processor.
    unsafe {
        let (zero, low, none) = (_mm_setzero_si128(), _mm_set1_epi16(0x00FF), _mm_set1_epi16(0xFF00u16 as i16));
        let (mut above, mut greatest, mut broken) = (zero, zero, zero);
        let mut fault = false;
        for (keys, &held) in keys.iter().zip(&counts.held) {
            let held = &keys[..held as usize];
            fault |= held[0] != 0;
            let (eights, rest) = held.as_chunks::<8>();
            for eight in eights {
                let at = eight.as_ptr().cast::<__m128i>();
                let (one, other) = (_mm_loadu_si128(at), _mm_loadu_si128(at.add(1)));
                above = _mm_or_si128(above, _mm_or_si128(one, other));
                let both = _mm_or_si128(one, _mm_slli_epi32(other, 16));
                greatest = _mm_max_epu8(greatest, _mm_and_si128(both, low));
                // A count of 0 beside a client above 0: the high byte is 0 and the low one is not.
                broken = _mm_or_si128(broken, _mm_cmpeq_epi16(_mm_cmpeq_epi8(both, zero), none));
            }
            // At most seven: a branch for each keeps the compiler from making vectors of them.
            if rest.iter().any(|&key| key_fault(key, p)) {
                return false;
            }
        }
        let too_great = _mm_subs_epu8(greatest, _mm_set1_epi8(p as i8 - 1));
        let high = _mm_and_si128(above, _mm_set1_epi32(0xFFFF_0000u32 as i32));
        let faults = _mm_or_si128(_mm_or_si128(high, broken), _mm_and_si128(too_great, low));
        !fault && _mm_movemask_epi8(_mm_cmpeq_epi8(faults, zero)) == 0xFFFF
    }
}

/// The badges of all versions held; the setpoints beside them are gathered too, since that takes no more.
#[inline(always)]
fn values_sound(counts: &Counts, values: &[Values]) -> bool {
    let mut any = Value { badge: 0, setpoint: 0 };
    for (values, &held) in values.iter().zip(&counts.held) {
        for value in &values[..held as usize] {
            any = Value { badge: any.badge | value.badge, setpoint: any.setpoint | value.setpoint };
        }
    }
    any.badge < BADGES_BELOW
}

#[inline(always)]
fn log_sound(log: &[Entry], p: u32, all: u32) -> bool {
    let fault = |entry: &Entry| key_fault(entry.key, p) | (entry.mask == 0) | (entry.mask & !all != 0);
    !log.iter().fold(false, |faults, entry| faults | fault(entry))
}

/// `most` is what count or mask may be. The records without an end are those of the busy clients, one each, at the place that the client's
/// row has. A WRITE has a badge.
#[inline(always)]
fn records_sound<const BADGED: bool>(records: &[Record], clients: &[Client], most: u32, entries: u32, busy: u32) -> bool {
    let p = clients.len() as u32;
    let (mut faults, mut open, mut badges) = (false, 0, 0);
    for (place, record) in records.iter().enumerate() {
        faults |= (record.client >= p) | (record.what.wrapping_sub(1) >= most) | (record.tag >= entries);
        badges |= record.badge;
        if record.end == 0 {
            let Some(row) = clients.get(record.client as usize) else { return false };
            if busy >> record.client & 1 == 0 || row.record != place as u32 {
                return false;
            }
            open |= 1 << record.client;
        }
    }
    !faults && open == busy && (!BADGED || badges < BADGES_BELOW)
}

/// The clients that are writing and those that are reading.
#[inline(always)]
fn clients_sound(counts: &Counts, clients: &[Client], links: &[Links], all: u32) -> Option<[u32; 2]> {
    let mut total = 0;
    let (mut writing, mut reading) = (0u32, 0u32);
    for (client, (row, links)) in clients.iter().zip(links).enumerate() {
        // States that the method and the part allow, as bits.
        let allowed = match counts.method {
            1 if client == 0 => 0b01_0001,
            1 => 0b00_0111,
            2 => 0b01_1111,
            _ => 0b10_0111,
        };
        if row.state > 5 || allowed >> row.state & 1 == 0 || row.count > 255 || kept_fault(counts, row) {
            return None;
        }
        total += row.count;
        let kinds = links.iter().fold(0, |any, link| any | link.kind);
        let received = row.received.iter().fold(0, |any, received| any | received);
        if row.state == IDLE {
            if row.mask > all || kinds | received != 0 {
                return None;
            }
            continue;
        }
        if row.mask == 0 || row.mask > all || !busy_sound(counts, client as u32, row, links, received, all) {
            return None;
        }
        if row.state <= ENTERING {
            if row.count == 0 {
                return None;
            }
            writing |= 1 << client;
        } else {
            reading |= 1 << client;
        }
    }
    (total == counts.writes).then_some([writing, reading])
}

/// Whether a tag or a badge that a client keeps is out of its range; of servers beyond k it is free.
#[inline(always)]
fn kept_fault(counts: &Counts, row: &Client) -> bool {
    let mut faults = (row.tag >= counts.entries) | (row.write_badge >= BADGES_BELOW);
    for server in 0..counts.servers as usize & 31 {
        faults |= (row.tags[server & 15] >= counts.entries) | (row.badges[server & 15] >= BADGES_BELOW);
    }
    faults
}

/// A busy client's links, the keys that it asks for, and what it received.
fn busy_sound(counts: &Counts, client: u32, row: &Client, links: &Links, received: u32, all: u32) -> bool {
    let sends = match row.state {
        WRITING | ASKING_SETPOINTS => row.mask,
        ENTERING | ASKING_KEYS => 1 << HEAD,
        _ => row.mask | 1 << HEAD,
    };
    let held = |target: usize| if target == HEAD { counts.entries } else { counts.held[target] };
    let mut occupied = 0;
    for (target, link) in links.iter().enumerate() {
        if link.kind == NOTHING {
            continue;
        }
        occupied |= 1 << target;
        let own_key = link.key >> 16 == 0 && link.key >= 256 && link.key & 255 == client;
        let good = match (link.kind, row.state) {
            (LOST, _) => true,
            (REQUEST, WRITING) => own_key && link.badge < BADGES_BELOW,
            (REQUEST, ENTERING) => own_key && link.number.wrapping_sub(1) < all,
            (REQUEST, ASKING_SETPOINTS) => !key_fault(link.key, counts.clients),
            (REQUEST, _) => true,
            (REPLY, ENTERING) => link.number >= 1 && link.number < counts.entries,
            (REPLY, ASKING_KEYS | ASKING_ALL) => link.number.wrapping_sub(1) < held(target),
            (REPLY, ASKING_SETPOINTS) => link.badge < BADGES_BELOW,
            (REPLY, _) => true,
            _ => false,
        };
        if !good {
            return false;
        }
    }
    if occupied == 0 || occupied & !sends != 0 {
        return false;
    }
    if row.state == ASKING_SETPOINTS && each_server(row.mask).any(|server| key_fault(row.asked[server], counts.clients)) {
        return false;
    }
    if row.state != ASKING_ALL {
        return received == 0;
    }
    let arrived = sends & !occupied;
    row.received.iter().enumerate().all(|(target, &received)| {
        if arrived >> target & 1 == 1 {
            received.wrapping_sub(1) < held(target)
        } else {
            received == 0
        }
    })
}
