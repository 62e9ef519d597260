//! A codec of frames: a frame without entries is one 64-bit number (a set has nine bits more), entries are moved by whole 64-bit words. It
//! answers as the exported functions do.

use ffi::frame::Parts;
use frames::lent::Fixed;
use std::mem::MaybeUninit;

const fn refused(number: u64) -> u64 {
    u64::MAX - number
}

const fn refusal(number: u64) -> Parts {
    Parts { head: refused(number), tail: refused(number) }
}

/// Bits ahead of the entries, or of a frame that has none.
const BITS: [u32; 13] = [0, 73, 13, 41, 21, 13, 26, 25, 61, 13, 21, 13, 21];
/// Kinds whose target is a server, as bits.
const TO_SERVER: u32 = 1 << 1 | 1 << 2 | 1 << 7 | 1 << 8 | 1 << 9 | 1 << 10;
/// Bits of an entry of kinds 6, 10 and 12: a key of 12, of kind 10 a badge of 16, and a tag, a setpoint or a mask.
const KEYS: u32 = 20;
const ALL: u32 = 60;
const LOG: u32 = 28;
const KEY: u32 = 12;
/// The bits of a badge in an entry of so many.
const fn badge_bits(width: u32) -> u32 {
    if width == ALL {
        16
    } else {
        0
    }
}
/// Bytes of a set: 8, and two with the setpoint's last nine bits.
const SET: usize = 10;

/// Up to 8 bytes from the front, as the highest bytes of a number.
#[inline(always)]
fn front(bytes: &[u8]) -> u64 {
    if let Some(whole) = bytes.first_chunk::<8>() {
        return u64::from_be_bytes(*whole);
    }
    let part = |chunk: Option<&[u8; 4]>| chunk.map_or(0, |chunk| u64::from(u32::from_be_bytes(*chunk)));
    match bytes.len() {
        // Two loads that overlap.
        4.. => part(bytes.first_chunk()) << 32 | part(bytes.last_chunk()) << (64 - 8 * bytes.len()),
        2.. => {
            let (first, last) = (u16::from_be_bytes([bytes[0], bytes[1]]), bytes[bytes.len() - 1]);
            u64::from(first) << 48 | u64::from(last) << (64 - 8 * bytes.len())
        }
        1 => u64::from(bytes[0]) << 56,
        _ => 0,
    }
}

/// A field of a number: `width` bits behind the first `at`.
#[inline(always)]
fn field(word: u64, at: u32, width: u32) -> u64 {
    word << at >> (64 - width)
}

/// 64 bits from a place on; those behind the end are 0.
#[inline(always)]
fn bits_at(bytes: &[u8], at: usize) -> u64 {
    let (rest, within) = (&bytes[at / 8..], at % 8);
    // The ninth byte has the last bits, where there are any.
    let ninth = rest.get(8).map_or(0, |&byte| u64::from(byte) << within >> 8);
    front(rest) << within | ninth
}

/// Reads a frame; its entries go to the front of the slices.
#[inline(never)]
pub fn read(bytes: &[u8], keys: &mut [u32], badges: &mut [u32], numbers: &mut [u32]) -> Parts {
    let word = front(bytes);
    let kind = field(word, 0, 4) as u32;
    let (client, target) = (field(word, 4, 4), field(word, 8, 5));
    if kind.wrapping_sub(1) >= 12 || bytes.len() * 8 < BITS[kind as usize] as usize {
        return fault(bytes);
    }
    let to_server = TO_SERVER >> kind & 1 == 1;
    if to_server != (target < 16) || target > 16 {
        return refusal(11);
    }
    let server = if to_server { target } else { 0 };
    let target = u64::from(kind) << 56 | client << 48 | server << 40;
    let head = |tag: u64, count: u64, owner: u64| target | tag << 32 | count << 24 | owner << 16;
    let (head, tail) = match kind {
        2 | 5 | 9 | 11 => (head(0, 0, 0), 0),
        1 => {
            let (count, owner, badge) = (field(word, 13, 8), field(word, 21, 4), field(word, 25, 16));
            let last = u64::from(u16::from_be_bytes([bytes[SET - 2], bytes[SET - 1]]));
            if count == 0 || owner != client || bytes.len() != SET || last % 128 != 0 {
                return refusal(11);
            }
            return Parts { head: head(0, count, owner) | badge, tail: 512 * field(word, 41, 23) + last / 128 };
        }
        3 => {
            let (count, owner, number) = (field(word, 13, 8), field(word, 21, 4), field(word, 25, 16));
            if count == 0 || owner != client || number == 0 {
                return refusal(11);
            }
            (head(0, count, owner), number)
        }
        4 => {
            let tag = field(word, 13, 8);
            if tag == 0 {
                return refusal(11);
            }
            (head(tag, 0, 0), 0)
        }
        7 => {
            let (count, owner) = (field(word, 13, 8), field(word, 21, 4));
            if count == 0 && owner != 0 {
                return refusal(11);
            }
            (head(0, count, owner), 0)
        }
        8 => (head(0, 0, 0) | field(word, 13, 16), field(word, 29, 32)),
        6 => {
            let (tag, entries) = (field(word, 13, 8), field(word, 21, 5) as usize);
            if entries.wrapping_sub(1) >= 16 {
                return refusal(11);
            }
            return match read_entries::<KEYS>(bytes, 26, entries, keys, badges, numbers) {
                Ok(()) => Parts { head: head(tag, 0, 0), tail: (entries as u64) << 32 },
                Err(parts) => parts,
            };
        }
        _ => {
            let entries = field(word, 13, 8) as usize + 1;
            let done = if kind == 10 {
                read_entries::<ALL>(bytes, 21, entries, keys, badges, numbers)
            } else {
                read_entries::<LOG>(bytes, 21, entries, keys, badges, numbers)
            };
            return match done {
                Ok(()) => Parts { head: head(0, 0, 0), tail: (entries as u64) << 32 },
                Err(parts) => parts,
            };
        }
    };
    let bits = BITS[kind as usize];
    if bytes.len() != bits.div_ceil(8) as usize || word << bits != 0 {
        return refusal(11);
    }
    Parts { head, tail }
}

/// Entries of WIDTH bits each: a key, of versions a badge, and a number behind it; of a log it is a mask.
#[inline(always)]
fn read_entries<const WIDTH: u32>(
    bytes: &[u8],
    first: u32,
    entries: usize,
    keys: &mut [u32],
    badges: &mut [u32],
    numbers: &mut [u32],
) -> Result<(), Parts> {
    let bits = first as usize + WIDTH as usize * entries;
    if bytes.len() * 8 < bits {
        return Err(fault(bytes));
    }
    // The entries stay here until the whole frame was found good.
    let [mut found_keys, mut found_badges, mut found_numbers] = [[MaybeUninit::<u32>::uninit(); 256]; 3];
    let mut broken = false;
    let badge = badge_bits(WIDTH);
    let mut one = |entry: usize, word: u64| {
        let (count, owner) = (field(word, 0, 8) as u32, field(word, 8, 4) as u32);
        let number = field(word, KEY + badge, WIDTH - KEY - badge) as u32;
        broken |= (count == 0 && owner != 0) || (WIDTH == LOG && number == 0);
        found_keys[entry & 255].write(256 * count + owner);
        if WIDTH == ALL {
            found_badges[entry & 255].write(field(word, KEY, 16) as u32);
        }
        found_numbers[entry & 255].write(number);
    };
    // As many as have eight bytes to load from where they start, or nine where an entry can reach so far.
    let loaded = if WIDTH > 57 { 72 } else { 64 };
    let whole = match (bytes.len() * 8).checked_sub(loaded + first as usize) {
        Some(room) => (room / WIDTH as usize + 1).min(entries),
        None => 0,
    };
    let mut at = first as usize;
    for entry in 0..whole {
        let place = unsafe { bytes.as_ptr().add(at / 8) };
        let mut word = u64::from_be_bytes(unsafe { place.cast::<[u8; 8]>().read() }) << (at % 8);
        if WIDTH > 57 {
            word |= u64::from(unsafe { place.add(8).read() }) << (at % 8) >> 8;
        }
        one(entry, word);
        at += WIDTH as usize;
    }
    for entry in whole..entries {
        one(entry, bits_at(bytes, at));
        at += WIDTH as usize;
    }
    let padding = if bits.is_multiple_of(8) { 0 } else { bytes[bits / 8] << (bits % 8) };
    if broken || bytes.len() != bits.div_ceil(8) || padding != 0 {
        return Err(refusal(11));
    }
    if keys.len() < entries || (WIDTH == ALL && badges.len() < entries) || numbers.len() < entries {
        return Err(refusal(12));
    }
    // The first entries were written above.
    unsafe {
        keys.as_mut_ptr().copy_from_nonoverlapping(found_keys.as_ptr().cast(), entries);
        if WIDTH == ALL {
            badges.as_mut_ptr().copy_from_nonoverlapping(found_badges.as_ptr().cast(), entries);
        }
        numbers.as_mut_ptr().copy_from_nonoverlapping(found_numbers.as_ptr().cast(), entries);
    }
    Ok(())
}

/// The refusal of a frame whose fields end too early, or whose kind is none: fields in order, the first fault decides.
#[cold]
#[inline(never)]
fn fault(bytes: &[u8]) -> Parts {
    let mut at = 0;
    let mut next = |width: usize| -> Result<u64, u64> {
        if at + width > 8 * bytes.len() {
            return Err(10);
        }
        let value = field(bits_at(bytes, at), 0, width as u32);
        at += width;
        Ok(value)
    };
    let mut run = || -> Result<(), u64> {
        let check = |good: bool| if good { Ok(()) } else { Err(11u64) };
        let kind = next(4)? as u32;
        check((1..=12).contains(&kind))?;
        let client = next(4)?;
        let target = next(5)?;
        check(if TO_SERVER >> kind & 1 == 1 { target < 16 } else { target == 16 })?;
        match kind {
            1 | 3 => {
                check(next(8)? >= 1)?;
                check(next(4)? == client)?;
                // A badge and a setpoint, or a mask.
                next(16)?;
                if kind == 1 {
                    next(32)?;
                }
            }
            4 => check(next(8)? >= 1)?,
            7 => {
                let (count, owner) = (next(8)?, next(4)?);
                check(count > 0 || owner == 0)?;
            }
            8 => {
                next(16)?;
                next(32)?;
            }
            6 | 10 | 12 => {
                let entries = if kind == 6 {
                    next(8)?;
                    next(5)?
                } else {
                    next(8)? + 1
                };
                check(kind != 6 || (1..=16).contains(&entries))?;
                for _ in 0..entries {
                    let (count, owner) = (next(8)?, next(4)?);
                    check(count > 0 || owner == 0)?;
                    if kind == 10 {
                        next(16)?;
                    }
                    let number = next(match kind {
                        6 => 8,
                        10 => 32,
                        _ => 16,
                    })?;
                    check(kind != 12 || number != 0)?;
                }
            }
            _ => {}
        }
        Ok(())
    };
    refusal(run().err().unwrap_or(11))
}

/// Writes a message to the front of the bytes: its length.
#[inline(never)]
pub fn write(fixed: &Fixed, keys: &[u32], badges: &[u32], numbers: &[u32], bytes: &mut [u8]) -> u64 {
    let Fixed { kind, client, server, key: (count, owner), badge, number, tag, entries } = *fixed;
    let to_server = TO_SERVER >> (kind & 31) & 1 == 1;
    if kind.wrapping_sub(1) >= 12 || client > 15 || (to_server && server > 15) {
        return refused(11);
    }
    let target = if to_server { server } else { 16 };
    let head = u64::from(kind) << 60 | u64::from(client) << 56 | u64::from(target) << 51;
    let key = u64::from(count) << 43 | u64::from(owner) << 39;
    let word = match kind {
        2 | 5 | 9 | 11 => head,
        1 => {
            if count == 0 || owner != client {
                return refused(11);
            }
            let Some(room) = bytes.first_chunk_mut::<SET>() else { return refused(12) };
            let word = head | key | u64::from(badge) << 23 | u64::from(number) >> 9;
            room[..SET - 2].copy_from_slice(&word.to_be_bytes());
            room[SET - 2..].copy_from_slice(&((number << 7) as u16).to_be_bytes());
            return SET as u64;
        }
        3 => {
            if count == 0 || owner != client || number.wrapping_sub(1) >= 65535 {
                return refused(11);
            }
            head | key | u64::from(number) << 23
        }
        4 if tag == 0 => return refused(11),
        4 => head | u64::from(tag) << 43,
        7 if owner > 15 || (count == 0 && owner != 0) => return refused(11),
        7 => head | key,
        8 => head | u64::from(badge) << 35 | u64::from(number) << 3,
        6 => {
            let head = head | u64::from(tag) << 43 | u64::from(entries) << 38;
            return write_entries::<KEYS, 16>(head, 26, entries as usize, keys, badges, numbers, bytes);
        }
        10 => {
            let head = head | u64::from(entries.wrapping_sub(1) & 255) << 43;
            return write_entries::<ALL, 256>(head, 21, entries as usize, keys, badges, numbers, bytes);
        }
        _ => {
            let head = head | u64::from(entries.wrapping_sub(1) & 255) << 43;
            return write_entries::<LOG, 256>(head, 21, entries as usize, keys, badges, numbers, bytes);
        }
    };
    let length = BITS[kind as usize].div_ceil(8) as usize;
    if bytes.len() < length {
        return refused(12);
    }
    put_front(&mut bytes[..length], word);
    length as u64
}

/// The highest bytes of a number to at most 8 bytes, by two stores that overlap.
#[inline(always)]
fn put_front(bytes: &mut [u8], word: u64) {
    let whole = word.to_be_bytes();
    match bytes.len() {
        8.. => bytes[..8].copy_from_slice(&whole),
        length @ 4.. => {
            bytes[..4].copy_from_slice(&whole[..4]);
            let last = ((word << (8 * (length - 4))) >> 32) as u32;
            bytes[length - 4..].copy_from_slice(&last.to_be_bytes());
        }
        length @ 2.. => {
            bytes[..2].copy_from_slice(&whole[..2]);
            bytes[length - 1] = (word >> (64 - 8 * length)) as u8;
        }
        1 => bytes[0] = whole[0],
        _ => {}
    }
}

/// Entries of WIDTH bits behind the first ones of the head.
#[inline(always)]
fn write_entries<const WIDTH: u32, const MOST: usize>(
    head: u64,
    first: u32,
    entries: usize,
    keys: &[u32],
    badges: &[u32],
    numbers: &[u32],
    bytes: &mut [u8],
) -> u64 {
    let badged = if WIDTH == ALL { entries } else { 0 };
    if entries.wrapping_sub(1) >= MOST || keys.len() < entries || badges.len() < badged || numbers.len() < entries {
        return refused(11);
    }
    let (keys, badges, numbers) = (&keys[..entries], &badges[..badged], &numbers[..entries]);
    let key_fault = |key: u32| (key >> 16 != 0) | ((key & 255) as i32 > 15) | (key != 0 && (key as i32) < 256);
    let mut broken = keys.iter().fold(false, |broken, &key| broken | key_fault(key));
    broken |= badges.iter().fold(0, |all, &badge| all | badge) >> 16 != 0;
    if WIDTH != ALL {
        let number_fault = |number: u32| (WIDTH == LOG && number == 0) | (number >> (WIDTH - KEY) != 0);
        broken |= numbers.iter().fold(false, |broken, &number| broken | number_fault(number));
    }
    if broken {
        return refused(11);
    }
    let bits = first as usize + WIDTH as usize * entries;
    let length = bits.div_ceil(8);
    let Some(room) = bytes.get_mut(..length) else { return refused(12) };
    // The bits not yet stored stand at the top of the accumulator.
    let (mut accumulator, mut used, mut at) = (head, first, 0);
    for entry in 0..entries {
        let key = u64::from(keys[entry] >> 8) << 4 | u64::from(keys[entry] & 15);
        let mut value = key << (WIDTH - KEY) | u64::from(numbers[entry]);
        if WIDTH == ALL {
            value |= u64::from(badges[entry]) << 32;
        }
        if WIDTH == ALL && used + WIDTH > 64 {
            // Behind bits that are no whole byte it may not fit: its first bits fill the word up, and the others begin the next.
            let over = used + WIDTH - 64;
            room[at..at + 8].copy_from_slice(&(accumulator | value >> over).to_be_bytes());
            at += 8;
            accumulator = value << (64 - over);
            used = over;
            continue;
        }
        if used + WIDTH > 64 {
            // More than 64 bits are still to come, so eight bytes fit; those that are not whole yet are stored again.
            room[at..at + 8].copy_from_slice(&accumulator.to_be_bytes());
            let whole = (used / 8) as usize;
            at += whole;
            // All eight may be whole, and a shift by 64 is none.
            accumulator = accumulator << (4 * whole) << (4 * whole);
            used %= 8;
        }
        accumulator |= value << (64 - WIDTH - used);
        used += WIDTH;
    }
    put_front(&mut room[at..], accumulator);
    length as u64
}
