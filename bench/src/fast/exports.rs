//! The same functions with the arguments of the proved exports, never inlined. Who is measured calls them from another crate
//! (`bench/src/calls.rs`), as the proved exports are called: within this one the compiler would not hand over what a function leaves unread.

use super::opening::{self, Opened};
use super::tables::Sound;
use super::{check, load, steps};
use setpoint_store::{Crossing, LoadEnd};
use std::slice::{from_raw_parts, from_raw_parts_mut};

/// Functions that are lent the eight tables, each by a pointer and a length, and then what their own arguments are.
macro_rules! exported {
    ($($name:ident($($more:ident: $type:ty),*) -> $answer:ty, |$places:ident, $lengths:ident| $body:expr;)*) => {
        $(
            /// # Safety
            /// Each pointer has so many words behind it; but for the check, the opening and the load, the tables are sound.
            #[inline(never)]
            #[allow(clippy::too_many_arguments)]
            #[rustfmt::skip]
            pub unsafe extern "C" fn $name(
                counts: *mut u32, counts_length: usize, clients: *mut u32, clients_length: usize,
                links: *mut u32, links_length: usize, keys: *mut u32, keys_length: usize,
                values: *mut u32, values_length: usize, log: *mut u32, log_length: usize,
                writes: *mut u32, writes_length: usize, reads: *mut u32, reads_length: usize,
                $($more: $type),*
            ) -> $answer {
                let $places = [counts, clients, links, keys, values, log, writes, reads];
                let $lengths = [
                    counts_length, clients_length, links_length, keys_length, values_length, log_length, writes_length, reads_length,
                ];
                $body
            }
        )*
    };
}

exported! {
    fast_sound() -> bool, |places, lengths| check::sound(lent(places, lengths));
    fast_open(method: u32, servers: u32, panels: u32, given: *const u32, given_length: usize) -> u32, |places, lengths| {
        opening::open(opened(places, lengths), method, servers, panels, from_raw_parts(given, given_length))
    };
    fast_begin_write(client: u32, mask: u32, badge: u16, given: *const u32, given_length: usize) -> u32, |places, _lengths| {
        steps::begin_write(Sound::at(places), client, mask, badge, from_raw_parts(given, given_length))
    };
    fast_begin_read(client: u32, mask: u32) -> u32, |places, _lengths| steps::begin_read(Sound::at(places), client, mask);
    fast_deliver_request(client: u32, target: u32) -> u32, |places, _lengths| {
        steps::deliver_request(Sound::at(places), client, target)
    };
    fast_deliver_reply(client: u32, target: u32) -> Crossing, |places, _lengths| {
        steps::deliver_reply(Sound::at(places), client, target)
    };
    fast_lose(client: u32, target: u32) -> u32, |places, _lengths| steps::lose(Sound::at(places), client, target);
    fast_resend(client: u32, target: u32) -> u32, |places, _lengths| steps::resend(Sound::at(places), client, target);
    fast_load_play(seed: u32, length: u32, list: *mut u32, list_length: usize) -> LoadEnd, |places, lengths| {
        load::play(places, lengths, seed, length, from_raw_parts_mut(list, list_length))
    };
}

#[inline(always)]
unsafe fn lent<'a>(places: [*mut u32; 8], lengths: [usize; 8]) -> check::Lent<'a> {
    std::array::from_fn(|table| from_raw_parts(places[table], lengths[table]))
}

#[inline(always)]
unsafe fn opened<'a>(places: [*mut u32; 8], lengths: [usize; 8]) -> Opened<'a> {
    let [counts, clients, links, keys, values, log, ..] = places;
    let slice = |place: *mut u32, table: usize| from_raw_parts_mut(place, lengths[table]);
    Opened {
        counts: slice(counts, 0),
        clients: slice(clients, 1),
        links: slice(links, 2),
        keys: slice(keys, 3),
        values: slice(values, 4),
        log: slice(log, 5),
        records: [lengths[6], lengths[7]],
    }
}
