//! The six steps on tables known to be sound. What sound tables say of a number is not tested again.

use super::choice::choose;
use super::search::{latest_of_all, place_of, tag_of};
use super::tables::*;
use setpoint_store::Crossing;
use std::hint::assert_unchecked;

#[inline(always)]
fn own_key(client: u32, count: u32) -> u32 {
    256 * count + client
}

/// Whether a mask is one of at least one server, and of none beyond k.
#[inline(always)]
fn fits(mask: u32, servers: u32) -> bool {
    mask != 0 && mask >> servers == 0
}

#[inline(always)]
pub fn begin_write(t: Sound, client: u32, mask: u32, badge: u16, setpoints: &[u32]) -> u32 {
    let Sound { counts, clients, links, writes, .. } = t;
    let Some(row) = clients.get_mut(client as usize) else { return 3 };
    if counts.method == 1 {
        return 4;
    }
    if row.state != IDLE {
        return 5;
    }
    if !fits(mask, counts.servers) || setpoints.len() != counts.servers as usize {
        return 6;
    }
    if counts.writes >= 255 || counts.step == u32::MAX {
        return 7;
    }
    // Sound tables have at most 16 servers.
    unsafe { assert_unchecked(setpoints.len() <= 16) };
    let (place, count, step, badge) = (counts.writes, row.count + 1, counts.step + 1, u32::from(badge));
    counts.step = step;
    counts.writes = place + 1;
    row.state = WRITING;
    row.count = count;
    row.mask = mask;
    row.record = place;
    row.write_badge = badge;
    let key = own_key(client, count);
    let links = &mut links[client as usize];
    for (server, &setpoint) in setpoints.iter().enumerate() {
        row.setpoints[server] = setpoint;
        if mask >> server & 1 == 1 {
            links[server] = Link { kind: REQUEST, key, number: setpoint, badge };
        }
    }
    writes[place as usize] = Record { client, what: count, tag: 0, begin: step, end: 0, badge };
    0
}

#[inline(always)]
pub fn begin_read(t: Sound, client: u32, mask: u32) -> u32 {
    let Sound { counts, clients, links, reads, .. } = t;
    let Some(row) = clients.get_mut(client as usize) else { return 3 };
    if counts.method == 1 {
        return 4;
    }
    if row.state != IDLE {
        return 5;
    }
    if !fits(mask, counts.servers) {
        return 6;
    }
    if counts.reads >= 255 || counts.step == u32::MAX {
        return 7;
    }
    let (place, step) = (counts.reads, counts.step + 1);
    counts.step = step;
    counts.reads = place + 1;
    row.mask = mask;
    row.record = place;
    reads[place as usize] = Record { client, what: mask, tag: 0, begin: step, end: 0, badge: 0 };
    let links = &mut links[client as usize];
    links[HEAD] = PLAIN_REQUEST;
    row.state = if counts.method == 2 {
        ASKING_KEYS
    } else {
        each_server(mask).for_each(|server| links[server] = PLAIN_REQUEST);
        ASKING_ALL
    };
    0
}

/// The target of a link that is there, while step numbers are left; or the refusal.
#[inline(always)]
fn target_on(counts: &Counts, clients: usize, client: u32, target: u32) -> Result<usize, u32> {
    let target = target as usize;
    if client as usize >= clients || (target >= counts.servers as usize && target != HEAD) {
        return Err(3);
    }
    if counts.step == u32::MAX {
        return Err(7);
    }
    // Sound tables have at most 16 servers.
    unsafe { assert_unchecked(target <= HEAD) };
    Ok(target)
}

#[inline(always)]
pub fn deliver_request(t: Sound, client: u32, target: u32) -> u32 {
    let Sound { counts, clients, links, keys, values, log, writes, .. } = t;
    let target = match target_on(counts, clients.len(), client, target) {
        Ok(target) => target,
        Err(refusal) => return refusal,
    };
    let row = &clients[client as usize];
    let link = &mut links[client as usize][target];
    if link.kind != REQUEST {
        return 9;
    }
    let held = counts.held[target & 15] as usize;
    let (mut number, mut badge) = (0, 0);
    match row.state {
        WRITING => {
            // Only servers are sent sets, and their tables are long enough.
            let (keys, values) = unsafe { (keys.get_unchecked_mut(target), values.get_unchecked_mut(target)) };
            if place_of(keys, held, link.key).is_none() {
                if held >= 256 {
                    return 8;
                }
                keys[held] = link.key;
                values[held] = Value { badge: link.badge, setpoint: link.number };
                counts.held[target & 15] = held as u32 + 1;
            }
        }
        ENTERING => {
            let entries = counts.entries as usize;
            number = match tag_of(log, entries, link.key) {
                Some(tag) => tag as u32,
                None if entries >= 256 => return 8,
                None => {
                    log[entries] = Entry { key: link.key, mask: link.number };
                    counts.entries = entries as u32 + 1;
                    unsafe { writes.get_unchecked_mut(row.record as usize) }.tag = entries as u32;
                    entries as u32
                }
            };
        }
        ASKING_SETPOINTS => {
            // Only servers are sent gets.
            let (keys, values) = unsafe { (keys.get_unchecked(target), values.get_unchecked(target)) };
            let Some(place) = place_of(keys, held, link.key) else { return 8 };
            let value = values[place & 255];
            (number, badge) = (value.setpoint, value.badge);
        }
        _ => number = if target == HEAD { counts.entries } else { held as u32 },
    }
    *link = Link { kind: REPLY, key: 0, number, badge };
    counts.step += 1;
    0
}

const fn plain(number: u64) -> Crossing {
    Crossing { number, setpoints: [0; 16], tags: [0; 16], badges: [0; 16] }
}

#[inline(always)]
fn is_pending(links: &Links) -> bool {
    links.iter().fold(0, |any, link| any | link.kind) != 0
}

#[inline(always)]
pub fn deliver_reply(t: Sound, client: u32, target: u32) -> Crossing {
    let Sound { counts, clients, links, keys, values, log, writes, reads } = t;
    let target = match target_on(counts, clients.len(), client, target) {
        Ok(target) => target,
        Err(refusal) => return plain(u64::from(refusal)),
    };
    let row = &mut clients[client as usize];
    let links = &mut links[client as usize];
    let Link { kind: REPLY, number, badge, .. } = links[target] else { return plain(9) };
    links[target] = EMPTY;
    let step = counts.step + 1;
    counts.step = step;
    match row.state {
        WRITING => {
            if is_pending(links) {
                return plain(WAIT);
            }
            row.state = ENTERING;
            links[HEAD] = Link { kind: REQUEST, key: own_key(client, row.count), number: row.mask, badge: 0 };
            plain(NEXT)
        }
        ENTERING => {
            row.tag = number;
            row.state = IDLE;
            unsafe { writes.get_unchecked_mut(row.record as usize) }.end = step;
            plain(WRITE + u64::from(number))
        }
        ASKING_KEYS => {
            row.tag = number - 1;
            row.state = ASKING_SETPOINTS;
            // Sound tables have answered no more entries than there are.
            let log = unsafe { log.get_unchecked(..number as usize) };
            latest_of_all(log, row.mask, |server, tag, key| {
                links[server] = Link { key, ..PLAIN_REQUEST };
                row.tags[server] = tag;
                row.asked[server] = key;
            });
            plain(NEXT)
        }
        ASKING_SETPOINTS => {
            row.setpoints[target & 15] = number;
            row.badges[target & 15] = badge;
            if is_pending(links) {
                return plain(WAIT);
            }
            let tags = row.tags;
            end_read(row, reads, step, &tags)
        }
        _ => {
            row.received[target] = number;
            if is_pending(links) {
                return plain(WAIT);
            }
            let tags = choose(row, keys, values, log);
            row.received = [0; 17];
            end_read(row, reads, step, &tags)
        }
    }
}

#[inline(always)]
fn end_read(row: &mut Client, reads: &mut Records, step: u32, tags: &[u32; 16]) -> Crossing {
    row.state = IDLE;
    let record = unsafe { reads.get_unchecked_mut(row.record as usize) };
    record.tag = row.tag;
    record.end = step;
    let mask = row.mask;
    // All ones where the mask has the server.
    let shown = |words: &[u32; 16]| std::array::from_fn(|server| words[server] & (mask >> server & 1).wrapping_neg());
    Crossing {
        number: READ + u64::from(row.tag),
        setpoints: shown(&row.setpoints),
        tags: shown(tags),
        badges: shown(&row.badges),
    }
}

#[inline(always)]
pub fn lose(t: Sound, client: u32, target: u32) -> u32 {
    let Sound { counts, clients, links, .. } = t;
    let target = match target_on(counts, clients.len(), client, target) {
        Ok(target) => target,
        Err(refusal) => return refusal,
    };
    let link = &mut links[client as usize][target];
    if link.kind == NOTHING || link.kind == LOST {
        return 14;
    }
    *link = Link { kind: LOST, ..EMPTY };
    counts.step += 1;
    0
}

#[inline(always)]
pub fn resend(t: Sound, client: u32, target: u32) -> u32 {
    let Sound { counts, clients, links, .. } = t;
    let target = match target_on(counts, clients.len(), client, target) {
        Ok(target) => target,
        Err(refusal) => return refusal,
    };
    let link = &mut links[client as usize][target];
    if link.kind != LOST {
        return 15;
    }
    let row = &clients[client as usize];
    let key = own_key(client, row.count);
    *link = match row.state {
        WRITING => Link { kind: REQUEST, key, number: row.setpoints[target & 15], badge: row.write_badge },
        ENTERING => Link { kind: REQUEST, key, number: row.mask, badge: 0 },
        ASKING_SETPOINTS => Link { key: row.asked[target & 15], ..PLAIN_REQUEST },
        _ => PLAIN_REQUEST,
    };
    counts.step += 1;
    0
}
