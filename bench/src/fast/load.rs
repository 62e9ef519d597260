//! A load: which steps are acceptable is kept as bits of each client, and brought up to date where a step changed it.

use super::check;
use super::search::{place_of, tag_of};
use super::steps;
use super::tables::*;
use setpoint_store::LoadEnd;
use std::slice::from_raw_parts;
use words::load::STEP_WORDS;

/// Kinds of a listed step.
const BEGIN_WRITE: u32 = 0;
const BEGIN_READ: u32 = 1;
const DELIVER_REQUEST: u32 = 2;
const DELIVER_REPLY: u32 = 3;

/// The acceptable steps: of each client whether it is idle, and its links with a request and with a reply that can be delivered.
struct Acceptable {
    idle: u32,
    requests: [u32; 16],
    replies: [u32; 16],
    /// How many of them there are, of each client and of all.
    counted: [[u32; 16]; 2],
    all: [u32; 2],
}

/// # Safety
/// Each place has so many words behind it.
#[inline(always)]
pub unsafe fn play(places: [*mut u32; 8], lengths: [usize; 8], seed: u32, length: u32, list: &mut [u32]) -> LoadEnd {
    let refused = |answer| LoadEnd { answer, steps: 0, seed };
    if !check::sound(std::array::from_fn(|table| from_raw_parts(places[table], lengths[table]))) {
        return refused(2);
    }
    if list.len() < STEP_WORDS * length as usize {
        return refused(12);
    }
    let mut acceptable = Acceptable::of(&Sound::at(places));
    let mut end = LoadEnd { answer: 0, steps: 0, seed };
    for row in list.as_chunks_mut::<STEP_WORDS>().0.iter_mut().take(length as usize) {
        let tables = Sound::at(places);
        let begins = [acceptable.begins(&tables, tables.counts.writes), acceptable.begins(&tables, tables.counts.reads)];
        let count = acceptable.count(&tables, begins);
        if count == 0 {
            break;
        }
        end.seed = end.seed.wrapping_mul(1_664_525).wrapping_add(1_013_904_223);
        *row = acceptable.picked(((end.seed >> 16) * count) >> 16, begins, &tables);
        end.steps += 1;
        acceptable.take(places, *row);
    }
    end
}

/// How many bits of a link's 17 are set: there is no instruction for it on every x86-64 processor.
#[inline(always)]
fn ones(bits: u32) -> u32 {
    bits.count_ones()
}

/// The place of the n-th bit that is set, from 0.
#[inline(always)]
fn nth(mut bits: u32, n: u32) -> u32 {
    for _ in 0..n {
        bits &= bits - 1;
    }
    bits.trailing_zeros()
}

impl Acceptable {
    fn of(t: &Sound) -> Acceptable {
        let mut found = Acceptable { idle: 0, requests: [0; 16], replies: [0; 16], counted: [[0; 16]; 2], all: [0; 2] };
        (0..t.clients.len()).for_each(|client| found.look_at(t, client));
        found
    }

    /// The clients that may begin, where so many of 255 have begun.
    #[inline(always)]
    fn begins(&self, t: &Sound, begun: u32) -> u32 {
        if begun < 255 && t.counts.method != 1 {
            self.idle
        } else {
            0
        }
    }

    #[inline(always)]
    fn count(&self, t: &Sound, begins: [u32; 2]) -> u32 {
        if t.counts.step == u32::MAX {
            return 0;
        }
        ones(begins[0]) + ones(begins[1]) + self.all[0] + self.all[1]
    }

    /// The row of the step at this place among the acceptable ones.
    #[inline(always)]
    fn picked(&self, mut place: u32, begins: [u32; 2], t: &Sound) -> [u32; STEP_WORDS] {
        let all = (1 << t.counts.servers) - 1;
        for (kind, clients) in [(BEGIN_WRITE, begins[0]), (BEGIN_READ, begins[1])] {
            if place < ones(clients) {
                let client = nth(clients, place);
                let setpoint = if kind == BEGIN_WRITE { t.clients[client as usize].count + 1 } else { 0 };
                return [kind, client, all, setpoint];
            }
            place -= ones(clients);
        }
        let (which, kind, links) = if place < self.all[0] {
            (0, DELIVER_REQUEST, &self.requests)
        } else {
            place -= self.all[0];
            (1, DELIVER_REPLY, &self.replies)
        };
        let mut client = 0;
        while place >= self.counted[which][client & 15] {
            place -= self.counted[which][client & 15];
            client += 1;
        }
        [kind, client as u32, nth(links[client & 15], place), 0]
    }

    /// Takes a step that is acceptable.
    #[inline(always)]
    unsafe fn take(&mut self, places: [*mut u32; 8], [kind, client, second, setpoint]: [u32; STEP_WORDS]) {
        let t = || Sound::at(places);
        match kind {
            BEGIN_WRITE => {
                let given = [setpoint; 16];
                let servers = t().counts.servers as usize;
                steps::begin_write(t(), client, second, 0, &given[..servers]);
            }
            BEGIN_READ => {
                steps::begin_read(t(), client, second);
            }
            DELIVER_REQUEST => return self.deliver_request(places, client, second),
            _ => {
                steps::deliver_reply(t(), client, second);
            }
        }
        self.look_at(&t(), client as usize);
    }

    /// A request becomes a reply. Other clients' steps change only where a set or an enter was stored: they may find it, or no place.
    #[inline(always)]
    unsafe fn deliver_request(&mut self, places: [*mut u32; 8], client: u32, target: u32) {
        let stores = matches!(Sound::at(places).clients[client as usize].state, WRITING | ENTERING);
        steps::deliver_request(Sound::at(places), client, target);
        let (client, target) = (client as usize, target as usize);
        self.put(0, client, self.requests[client] & !(1 << target));
        self.put(1, client, self.replies[client] | 1 << target);
        if stores {
            let t = Sound::at(places);
            (0..t.clients.len()).for_each(|other| self.look_again(&t, other, target));
        }
    }

    /// All of a client's steps anew.
    #[inline(always)]
    fn look_at(&mut self, t: &Sound, client: usize) {
        let (mut requests, mut replies) = (0, 0);
        for (target, link) in t.links[client].iter().enumerate() {
            if link.kind == REQUEST && can_be_delivered(t, client, target) {
                requests |= 1 << target;
            }
            replies |= u32::from(link.kind == REPLY) << target;
        }
        self.idle = self.idle & !(1 << client) | u32::from(t.clients[client].state == IDLE) << client;
        self.put(0, client, requests);
        self.put(1, client, replies);
    }

    /// A client's request to one target anew.
    #[inline(always)]
    fn look_again(&mut self, t: &Sound, client: usize, target: usize) {
        if t.links[client][target].kind == REQUEST {
            let bit = u32::from(can_be_delivered(t, client, target)) << target;
            self.put(0, client, self.requests[client] & !(1 << target) | bit);
        }
    }

    /// A client's links with requests, or with replies, that can be delivered.
    #[inline(always)]
    fn put(&mut self, which: usize, client: usize, links: u32) {
        let kept = if which == 0 { &mut self.requests[client] } else { &mut self.replies[client] };
        *kept = links;
        let counted = &mut self.counted[which][client];
        self.all[which] = self.all[which] - *counted + ones(links);
        *counted = ones(links);
    }
}

/// Whether the request on a link finds its key or a place.
#[inline(always)]
fn can_be_delivered(t: &Sound, client: usize, target: usize) -> bool {
    let key = t.links[client][target].key;
    let held = t.counts.held[target & 15] as usize;
    match t.clients[client].state {
        WRITING => held < 256 || place_of(&t.keys[target], held, key).is_some(),
        ENTERING => t.counts.entries < 256 || tag_of(t.log, t.counts.entries as usize, key).is_some(),
        ASKING_SETPOINTS => place_of(&t.keys[target], held, key).is_some(),
        _ => true,
    }
}
