//! The check of tables, the seven public steps of crate `store`, and the steps on tables known to be sound.

use crate::{lent, lent_mut, refusal};
use model::key::{has_server, servers_of};
use model::{Answer, Outcome, Shown, Step};
use setpoint_store::{accepted, Arrival, Crossing};
use std::hint::black_box;
use words::layout::MASK;
use words::Tables;

/// Any step by the functions of these names. An opening has one function only: it asks of no old contents. Each arm lends the tables by
/// itself, behind a black box: the compiler takes what all arms begin with ahead of them, and eight slices there are too many for its
/// registers, which cost a measured reply 30 instructions.
macro_rules! taken {
    ($library:expr, $tables:expr, $step:expr, $plain:expr, $replied:expr;
        $begin_write:ident, $begin_read:ident, $deliver_request:ident, $deliver_reply:ident, $lose:ident, $resend:ident) => {{
        let (library, t) = ($library, $tables);
        match $step {
            Step::Open { method, servers, clients, setpoints } => {
                $plain(library.open(lent_mut(black_box(t)), *method, *servers, *clients, setpoints))
            }
            Step::BeginWrite { client, mask, badge, setpoints } => {
                $plain(library.$begin_write(lent_mut(black_box(t)), *client, *mask, *badge, setpoints))
            }
            Step::BeginRead { client, mask } => $plain(library.$begin_read(lent_mut(black_box(t)), *client, *mask)),
            Step::DeliverRequest { client, target } => $plain(library.$deliver_request(lent_mut(black_box(t)), *client, *target)),
            Step::DeliverReply { client, target } => $replied(library.$deliver_reply(lent_mut(black_box(t)), *client, *target)),
            Step::Lose { client, target } => $plain(library.$lose(lent_mut(black_box(t)), *client, *target)),
            Step::Resend { client, target } => $plain(library.$resend(lent_mut(black_box(t)), *client, *target)),
        }
    }};
}

/// A handle that exists only where the library is linked.
#[derive(Clone, Copy, Debug)]
pub struct StoreLibrary(setpoint_store::StoreLibrary);

impl StoreLibrary {
    pub fn linked() -> Option<StoreLibrary> {
        setpoint_store::StoreLibrary::linked().map(StoreLibrary)
    }

    pub fn sound(self, tables: &Tables) -> bool {
        self.0.sound(lent(tables))
    }

    /// Takes any step on any tables.
    pub fn take(self, tables: &mut Tables, step: &Step) -> Outcome {
        let crossing = self.checked(tables, step, plain, |reply| reply);
        outcome(crossing, tables, step)
    }

    /// Takes any step by the function that checks no tables; those that are not sound are refused here.
    pub fn take_sound(self, tables: &mut Tables, step: &Step) -> Outcome {
        if !matches!(step, Step::Open { .. }) && !self.sound(tables) {
            return Err(model::Refusal::Unsound);
        }
        let crossing = unsafe { self.unchecked(tables, step, plain, |reply| reply) };
        outcome(crossing, tables, step)
    }

    /// The answer's number alone, for measurements.
    pub fn number(self, tables: &mut Tables, step: &Step) -> u64 {
        self.checked(tables, step, u64::from, |reply| reply.number)
    }

    /// The same by the function that checks no tables.
    ///
    /// # Safety
    /// The tables must be sound.
    pub unsafe fn number_sound(self, tables: &mut Tables, step: &Step) -> u64 {
        self.unchecked(tables, step, u64::from, |reply| reply.number)
    }

    /// Any step on any tables, and what is made of its answer.
    #[inline(always)]
    fn checked<T>(self, tables: &mut Tables, step: &Step, plain: impl Fn(u32) -> T, replied: impl Fn(Crossing) -> T) -> T {
        taken!(self.0, tables, step, plain, replied; begin_write, begin_read, deliver_request, deliver_reply, lose, resend)
    }

    /// The same by the functions that check no tables, which must be sound.
    #[inline(always)]
    unsafe fn unchecked<T>(
        self,
        tables: &mut Tables,
        step: &Step,
        plain: impl Fn(u32) -> T,
        replied: impl Fn(Crossing) -> T,
    ) -> T {
        taken!(self.0, tables, step, plain, replied;
            begin_write_unchecked, begin_read_unchecked, deliver_request_unchecked, deliver_reply_unchecked,
            lose_unchecked, resend_unchecked)
    }
}

#[inline]
fn plain(number: u32) -> Crossing {
    Crossing { number: u64::from(number), setpoints: [0; 16], tags: [0; 16], badges: [0; 16] }
}

fn outcome(crossing: Crossing, tables: &Tables, step: &Step) -> Outcome {
    match step {
        Step::DeliverReply { client, .. } => arrival(crossing, tables, *client as usize),
        _ => accepted(crossing.number as u32).map(|()| Answer::Ok).map_err(refusal),
    }
}

/// Setpoints, tags or badges beside any other answer than read, or of servers that are not masked, would be wrong.
fn arrival(crossing: Crossing, tables: &Tables, client: usize) -> Outcome {
    let arrival = crossing.arrival();
    let Crossing { setpoints, tags, badges, .. } = crossing;
    let mask = if matches!(arrival, Ok(Arrival::Read { .. })) { tables.client(client)[MASK] } else { 0 };
    let of = |server: usize| (setpoints[server], tags[server], badges[server]);
    let stray = (0..16).find(|&server| !has_server(mask, server) && of(server) != (0, 0, 0));
    assert_eq!(stray, None, "a setpoint, a tag or a badge is shown that was not asked for");
    let shown = |server| {
        let (setpoint, tag, badge) = of(server);
        Shown { server, setpoint, tag: tag as usize, badge }
    };
    Ok(match arrival.map_err(refusal)? {
        Arrival::Wait => Answer::Wait,
        Arrival::Next => Answer::Next,
        Arrival::Write { tag } => Answer::Write { tag: tag as usize },
        Arrival::Read { tag } => Answer::Read { tag: tag as usize, shown: servers_of(mask).map(shown).collect() },
    })
}
