//! Any step of a plan by the fast functions.

use bench::fast::exports::*;
use model::Step;
use setpoint_store::{Crossing, LoadEnd};
use std::hint::black_box;
use words::Tables;

/// A call of one of these functions on tables. Behind a black box, so that the tables are lent within the arm of a `match`, as in `ffi`.
macro_rules! call {
    ($name:ident, $tables:expr $(, $more:expr)*) => {{
        let Tables { counts, clients, links, keys, values, log, writes, reads } = black_box($tables);
        $name(
            counts.as_mut_ptr(), counts.len(), clients.as_mut_ptr(), clients.len(), links.as_mut_ptr(), links.len(),
            keys.as_mut_ptr(), keys.len(), values.as_mut_ptr(), values.len(), log.as_mut_ptr(), log.len(),
            writes.as_mut_ptr(), writes.len(), reads.as_mut_ptr(), reads.len() $(, $more)*
        )
    }};
}

/// Any step, and what is made of its answer.
///
/// # Safety
/// But for an opening, the tables are sound.
#[inline(always)]
unsafe fn taken<T>(tables: &mut Tables, step: &Step, plain: impl Fn(u32) -> T, replied: impl Fn(Crossing) -> T) -> T {
    match step {
        Step::Open { method, servers, clients, setpoints } => {
            plain(call!(fast_open, tables, *method, *servers, *clients, setpoints.as_ptr(), setpoints.len()))
        }
        Step::BeginWrite { client, mask, badge, setpoints } => {
            plain(call!(fast_begin_write, tables, *client, *mask, *badge, setpoints.as_ptr(), setpoints.len()))
        }
        Step::BeginRead { client, mask } => plain(call!(fast_begin_read, tables, *client, *mask)),
        Step::DeliverRequest { client, target } => plain(call!(fast_deliver_request, tables, *client, *target)),
        Step::DeliverReply { client, target } => replied(call!(fast_deliver_reply, tables, *client, *target)),
        Step::Lose { client, target } => plain(call!(fast_lose, tables, *client, *target)),
        Step::Resend { client, target } => plain(call!(fast_resend, tables, *client, *target)),
    }
}

/// The whole answer to a step.
///
/// # Safety
/// But for an opening, the tables are sound.
pub unsafe fn take(tables: &mut Tables, step: &Step) -> Crossing {
    let plain = |number| Crossing { number: u64::from(number), setpoints: [0; 16], tags: [0; 16], badges: [0; 16] };
    taken(tables, step, plain, |reply| reply)
}

/// The answer's number alone, for measurements.
///
/// # Safety
/// But for an opening, the tables are sound.
pub unsafe fn number(tables: &mut Tables, step: &Step) -> u64 {
    taken(tables, step, u64::from, |reply| reply.number)
}

/// The same on any tables, which are checked first.
pub fn number_checked(tables: &mut Tables, step: &Step) -> u64 {
    if !matches!(step, Step::Open { .. }) && !sound(tables) {
        return 2;
    }
    unsafe { number(tables, step) }
}

#[inline(always)]
pub fn sound(tables: &Tables) -> bool {
    let [counts, clients, links, keys, values, log, writes, reads] = tables.all();
    let place = |table: &Vec<u32>| table.as_ptr().cast_mut();
    // The check changes nothing.
    unsafe {
        fast_sound(
            place(counts),
            counts.len(),
            place(clients),
            clients.len(),
            place(links),
            links.len(),
            place(keys),
            keys.len(),
            place(values),
            values.len(),
            place(log),
            log.len(),
            place(writes),
            writes.len(),
            place(reads),
            reads.len(),
        )
    }
}

/// Plays a load on any tables and lists its steps at the front of the list.
pub fn play_load(tables: &mut Tables, seed: u32, length: u32, list: &mut [u32]) -> LoadEnd {
    unsafe { call!(fast_load_play, tables, seed, length, list.as_mut_ptr(), list.len()) }
}
