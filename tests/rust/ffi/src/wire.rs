//! The frame of a link and the register's listing, of crates `wire` and `listing`.

use crate::{lent, refusal};
use model::Refusal;
use words::Tables;

/// A handle that exists only where the library is linked.
#[derive(Clone, Copy, Debug)]
pub struct WireLibrary(setpoint_store::WireLibrary);

impl WireLibrary {
    pub fn linked() -> Option<WireLibrary> {
        setpoint_store::WireLibrary::linked().map(WireLibrary)
    }

    /// Writes the frame of a link to the front of the bytes: its length.
    pub fn write_link_frame(self, tables: &Tables, client: u32, target: u32, bytes: &mut [u8]) -> Result<usize, Refusal> {
        self.0.write_link_frame(lent(tables), client, target, bytes).map_err(refusal)
    }

    /// Lists the register at the front of the list: how many rows it has.
    pub fn list_register(self, tables: &Tables, list: &mut [u32]) -> Result<usize, Refusal> {
        self.0.list_register(lent(tables), list).map_err(refusal)
    }
}
