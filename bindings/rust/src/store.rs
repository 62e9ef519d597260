//! The check of tables, the seven public steps of crate `store`, and the steps on tables known to be sound.

use crate::{Crossing, Lent, LentMut};

/// A handle that exists only where both libraries are linked, that of the public steps and that of the steps on tables known to be sound.
#[derive(Clone, Copy, Debug)]
pub struct StoreLibrary(());

/// The public steps take any tables, and the library was proved to stay within the slices that it is lent.
impl StoreLibrary {
    pub fn linked() -> Option<StoreLibrary> {
        cfg!(all(store_exports, sound_exports)).then_some(StoreLibrary(()))
    }

    /// Whether the tables are sound.
    pub fn sound(self, tables: Lent) -> bool {
        unsafe { linked::store_sound(tables) }
    }

    /// Opens the store; the answer's number, as of the other steps.
    #[inline(always)]
    pub fn open(self, tables: LentMut, method: u32, servers: u32, clients: u32, setpoints: &[u32]) -> u32 {
        unsafe { linked::store_open(tables, method, servers, clients, setpoints.as_ptr(), setpoints.len()) }
    }

    #[inline(always)]
    pub fn begin_write(self, tables: LentMut, client: u32, mask: u32, badge: u16, setpoints: &[u32]) -> u32 {
        unsafe { linked::store_begin_write(tables, client, mask, badge, setpoints.as_ptr(), setpoints.len()) }
    }

    #[inline(always)]
    pub fn begin_read(self, tables: LentMut, client: u32, mask: u32) -> u32 {
        unsafe { linked::store_begin_read(tables, client, mask) }
    }

    #[inline(always)]
    pub fn deliver_request(self, tables: LentMut, client: u32, target: u32) -> u32 {
        unsafe { linked::store_deliver_request(tables, client, target) }
    }

    #[inline(always)]
    pub fn deliver_reply(self, tables: LentMut, client: u32, target: u32) -> Crossing {
        unsafe { linked::store_deliver_reply(tables, client, target) }
    }

    #[inline(always)]
    pub fn lose(self, tables: LentMut, client: u32, target: u32) -> u32 {
        unsafe { linked::store_lose(tables, client, target) }
    }

    #[inline(always)]
    pub fn resend(self, tables: LentMut, client: u32, target: u32) -> u32 {
        unsafe { linked::store_resend(tables, client, target) }
    }
}

/// The steps that check no tables. Nothing checks a caller in another language: on tables that are not sound anything may happen.
impl StoreLibrary {
    /// # Safety
    /// The tables must be sound.
    #[inline(always)]
    pub unsafe fn begin_write_unchecked(self, tables: LentMut, client: u32, mask: u32, badge: u16, setpoints: &[u32]) -> u32 {
        linked::store_begin_write_unchecked(tables, client, mask, badge, setpoints.as_ptr(), setpoints.len())
    }

    /// # Safety
    /// The tables must be sound.
    #[inline(always)]
    pub unsafe fn begin_read_unchecked(self, tables: LentMut, client: u32, mask: u32) -> u32 {
        linked::store_begin_read_unchecked(tables, client, mask)
    }

    /// # Safety
    /// The tables must be sound.
    #[inline(always)]
    pub unsafe fn deliver_request_unchecked(self, tables: LentMut, client: u32, target: u32) -> u32 {
        linked::store_deliver_request_unchecked(tables, client, target)
    }

    /// # Safety
    /// The tables must be sound.
    #[inline(always)]
    pub unsafe fn deliver_reply_unchecked(self, tables: LentMut, client: u32, target: u32) -> Crossing {
        linked::store_deliver_reply_unchecked(tables, client, target)
    }

    /// # Safety
    /// The tables must be sound.
    #[inline(always)]
    pub unsafe fn lose_unchecked(self, tables: LentMut, client: u32, target: u32) -> u32 {
        linked::store_lose_unchecked(tables, client, target)
    }

    /// # Safety
    /// The tables must be sound.
    #[inline(always)]
    pub unsafe fn resend_unchecked(self, tables: LentMut, client: u32, target: u32) -> u32 {
        linked::store_resend_unchecked(tables, client, target)
    }
}

mod linked {
    use crate::exported::exported;
    use crate::{Crossing, Lent, LentMut};

    // tools/c-header compares these declarations with crates/store_exports/src/lib.rt and crates/sound_exports/src/lib.rt.
    exported!(store_exports store_sound: Lent,
        [counts ptr, clients ptr, links ptr, keys ptr, values ptr, log ptr, writes ptr, reads ptr]
        () -> bool);
    exported!(store_exports store_open: LentMut,
        [counts mut, clients mut, links mut, keys mut, values mut, log mut, writes ptr, reads ptr]
        (method: u32, servers: u32, panels: u32, given: *const u32, given_length: usize) -> u32);
    exported!(store_exports store_begin_write: LentMut,
        [counts mut, clients mut, links mut, keys ptr, values ptr, log ptr, writes mut, reads ptr]
        (client: u32, mask: u32, badge: u16, given: *const u32, given_length: usize) -> u32);
    exported!(sound_exports store_begin_write_unchecked: LentMut,
        [counts mut, clients mut, links mut, keys ptr, values ptr, log ptr, writes mut, reads ptr]
        (client: u32, mask: u32, badge: u16, given: *const u32, given_length: usize) -> u32);
    exported!(store_exports store_begin_read: LentMut,
        [counts mut, clients mut, links mut, keys ptr, values ptr, log ptr, writes ptr, reads mut]
        (client: u32, mask: u32) -> u32);
    exported!(sound_exports store_begin_read_unchecked: LentMut,
        [counts mut, clients mut, links mut, keys ptr, values ptr, log ptr, writes ptr, reads mut]
        (client: u32, mask: u32) -> u32);
    exported!(store_exports store_deliver_request: LentMut,
        [counts mut, clients ptr, links mut, keys mut, values mut, log mut, writes mut, reads ptr]
        (client: u32, target: u32) -> u32);
    exported!(sound_exports store_deliver_request_unchecked: LentMut,
        [counts mut, clients ptr, links mut, keys mut, values mut, log mut, writes mut, reads ptr]
        (client: u32, target: u32) -> u32);
    exported!(store_exports store_deliver_reply: LentMut,
        [counts mut, clients mut, links mut, keys ptr, values ptr, log ptr, writes mut, reads mut]
        (client: u32, target: u32) -> Crossing);
    exported!(sound_exports store_deliver_reply_unchecked: LentMut,
        [counts mut, clients mut, links mut, keys ptr, values ptr, log ptr, writes mut, reads mut]
        (client: u32, target: u32) -> Crossing);
    exported!(store_exports store_lose: LentMut,
        [counts mut, clients ptr, links mut, keys ptr, values ptr, log ptr, writes ptr, reads ptr]
        (client: u32, target: u32) -> u32);
    exported!(sound_exports store_lose_unchecked: LentMut,
        [counts mut, clients ptr, links mut, keys ptr, values ptr, log ptr, writes ptr, reads ptr]
        (client: u32, target: u32) -> u32);
    exported!(store_exports store_resend: LentMut,
        [counts mut, clients ptr, links mut, keys ptr, values ptr, log ptr, writes ptr, reads ptr]
        (client: u32, target: u32) -> u32);
    exported!(sound_exports store_resend_unchecked: LentMut,
        [counts mut, clients ptr, links mut, keys ptr, values ptr, log ptr, writes ptr, reads ptr]
        (client: u32, target: u32) -> u32);
}
