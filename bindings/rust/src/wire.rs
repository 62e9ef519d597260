//! The frame of a link and the register's listing, of crates `wire` and `listing`.

use crate::{answered, Lent, Refused};

/// A handle that exists only where the library is linked.
#[derive(Clone, Copy, Debug)]
pub struct WireLibrary(());

impl WireLibrary {
    pub fn linked() -> Option<WireLibrary> {
        cfg!(wire_exports).then_some(WireLibrary(()))
    }

    /// Writes the frame of a link to the front of the bytes: its length.
    pub fn write_link_frame(self, tables: Lent, client: u32, target: u32, bytes: &mut [u8]) -> Result<usize, Refused> {
        // The library was proved to stay within the slices that it is lent.
        let number = unsafe { linked::wire_write_link_frame(tables, client, target, bytes.as_mut_ptr(), bytes.len()) };
        answered(number).map(|length| length as usize)
    }

    /// Lists the register at the front of the list: how many rows it has.
    pub fn list_register(self, tables: Lent, list: &mut [u32]) -> Result<usize, Refused> {
        // As above.
        let number = unsafe { linked::wire_list_register(tables, list.as_mut_ptr(), list.len()) };
        answered(number).map(|rows| rows as usize)
    }
}

mod linked {
    use crate::exported::exported;
    use crate::Lent;

    // tools/c-header compares these declarations with crates/wire_exports/src/lib.rt.
    exported!(wire_exports wire_write_link_frame: Lent,
        [counts ptr, clients ptr, links ptr, keys ptr, values ptr, log ptr, writes ptr, reads ptr]
        (client: u32, target: u32, bytes: *mut u8, bytes_length: usize) -> u64);
    exported!(wire_exports wire_list_register: Lent,
        [counts ptr, clients ptr, links ptr, keys ptr, values ptr, log ptr, writes ptr, reads ptr]
        (list: *mut u32, list_length: usize) -> u64);
}
