//! The load of crate `workload`: its numbers, the next step, and a load played.

use crate::{Lent, LentMut};

/// A handle that exists only where the library is linked.
#[derive(Clone, Copy, Debug)]
pub struct LoadLibrary(());

/// A pick as it crosses: 0 and the step, the number of a refusal, or 256 where no step is acceptable.
#[repr(C)]
#[derive(Clone, Copy, Debug, PartialEq, Eq)]
pub struct LoadPick {
    pub answer: u32,
    /// The seed behind the step, or the seed as it was.
    pub seed: u32,
    /// 0 a WRITE, 1 a READ, 2 a request, 3 a reply.
    pub kind: u32,
    pub client: u32,
    /// The mask of a begin, the target of a delivery.
    pub second: u32,
    /// That of every server in a WRITE.
    pub setpoint: u32,
}

/// A load's end as it crosses: 0, how many steps it gave and the next seed; or the number of a refusal.
#[repr(C)]
#[derive(Clone, Copy, Debug, PartialEq, Eq)]
pub struct LoadEnd {
    pub answer: u32,
    pub steps: u32,
    pub seed: u32,
}

impl LoadLibrary {
    pub fn linked() -> Option<LoadLibrary> {
        cfg!(workload_exports).then_some(LoadLibrary(()))
    }

    /// The number behind a seed.
    pub fn advance(self, seed: u32) -> u32 {
        // It takes a number and gives one.
        unsafe { linked::load_advance([], seed) }
    }

    /// The next step on any tables.
    pub fn next_step(self, tables: Lent, seed: u32) -> LoadPick {
        // The library was proved to stay within the slices that it is lent.
        unsafe { linked::load_next_step(tables, seed) }
    }

    /// Plays a load on any tables and lists its steps at the front of the list.
    pub fn play(self, tables: LentMut, seed: u32, length: u32, list: &mut [u32]) -> LoadEnd {
        // As above.
        unsafe { linked::load_play(tables, seed, length, list.as_mut_ptr(), list.len()) }
    }
}

mod linked {
    use super::{LoadEnd, LoadPick};
    use crate::exported::exported;
    use crate::{Lent, LentMut};

    // tools/c-header compares these declarations with crates/workload_exports/src/lib.rt.
    exported!(workload_exports load_advance: [&[u32]; 0], [] (seed: u32) -> u32);
    exported!(workload_exports load_next_step: Lent,
        [counts ptr, clients ptr, links ptr, keys ptr, values ptr, log ptr, writes ptr, reads ptr]
        (seed: u32) -> LoadPick);
    exported!(workload_exports load_play: LentMut,
        [counts mut, clients mut, links mut, keys mut, values mut, log mut, writes mut, reads mut]
        (seed: u32, length: u32, list: *mut u32, list_length: usize) -> LoadEnd);
}
