//! Searches of versions and of the log, several rows at a time.

use super::tables::{each_server, Entry, Log, Versions};
use std::arch::x86_64::*;

/// The place of the first of `held` versions that bears the key, 16 at a time; what stands behind the held ones is looked at and not
/// counted.
#[inline(always)]
pub fn place_of(keys: &Versions, held: usize, key: u32) -> Option<usize> {
    // SSE2 is on every x86-64 processor; loads stay within the 256 words.
    let wanted = unsafe { _mm_set1_epi32(key as i32) };
    let mut first = 0;
    while first < held && first < 256 {
        let hits = unsafe {
            let at = keys.as_ptr().add(first).cast::<__m128i>();
            let equal = |place| _mm_cmpeq_epi32(_mm_loadu_si128(at.add(place)), wanted);
            packed([equal(0), equal(1), equal(2), equal(3)])
        };
        if hits != 0 {
            return counted(first, hits, held);
        }
        first += 16;
    }
    None
}

/// The first of so many log entries that bears the key, 16 at a time too: their keys are every second word.
#[inline(always)]
pub fn tag_of(log: &Log, entries: usize, key: u32) -> Option<usize> {
    // As above; an entry is two words.
    let wanted = unsafe { _mm_set1_epi32(key as i32) };
    let mut first = 0;
    while first < entries && first < 256 {
        let hits = unsafe {
            let at = log.as_ptr().add(first).cast::<__m128i>();
            let load = |place| _mm_castsi128_ps(_mm_loadu_si128(at.add(place)));
            let keys = |place| _mm_castps_si128(_mm_shuffle_ps::<0b10_00_10_00>(load(place), load(place + 1)));
            let equal = |place| _mm_cmpeq_epi32(keys(place), wanted);
            packed([equal(0), equal(2), equal(4), equal(6)])
        };
        if hits != 0 {
            return counted(first, hits, entries);
        }
        first += 16;
    }
    None
}

/// A bit for each of 16 words that are all ones or 0.
#[inline(always)]
unsafe fn packed([one, two, three, four]: [__m128i; 4]) -> u32 {
    _mm_movemask_epi8(_mm_packs_epi16(_mm_packs_epi32(one, two), _mm_packs_epi32(three, four))) as u32
}

#[inline(always)]
fn counted(first: usize, hits: u32, held: usize) -> Option<usize> {
    let place = first + hits.trailing_zeros() as usize;
    (place < held).then_some(place)
}

/// For each server of the mask the tag and the key of the latest entry that has it: one walk down the log for all of them, from one entry
/// that has any of those left to the next.
#[inline(always)]
pub fn latest_of_all(log: &[Entry], mask: u32, mut found: impl FnMut(usize, u32, u32)) {
    let (mut left, mut below) = (mask, log.len());
    while left != 0 {
        let Some(tag) = log[..below].iter().rposition(|entry| entry.mask & left != 0) else { return };
        let Entry { key, mask } = log[tag];
        each_server(mask & left).for_each(|server| found(server, tag as u32, key));
        left &= !mask;
        below = tag;
    }
}
