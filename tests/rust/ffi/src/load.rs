//! The load of crate `workload`: its numbers, the next step, and a load played.

use crate::{lent, lent_mut};
use words::load::{LoadEnd, LoadPick};
use words::Tables;

/// A handle that exists only where the library is linked.
#[derive(Clone, Copy, Debug)]
pub struct LoadLibrary(setpoint_store::LoadLibrary);

impl LoadLibrary {
    pub fn linked() -> Option<LoadLibrary> {
        setpoint_store::LoadLibrary::linked().map(LoadLibrary)
    }

    /// The number behind a seed.
    pub fn advance(self, seed: u32) -> u32 {
        self.0.advance(seed)
    }

    /// The next step on any tables.
    pub fn next_step(self, tables: &Tables, seed: u32) -> LoadPick {
        self.0.next_step(lent(tables), seed)
    }

    /// Plays a load on any tables and lists its steps at the front of the list.
    pub fn play(self, tables: &mut Tables, seed: u32, length: u32, list: &mut [u32]) -> LoadEnd {
        self.0.play(lent_mut(tables), seed, length, list)
    }
}
