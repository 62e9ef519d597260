//! The proved crates by the names and types of the model: steps and outcomes over the functions of `bindings/rust`, which call the static
//! libraries. Where a library was not built, its handle is not to be had.

pub mod frame;
mod load;
pub mod recording;
mod store;
mod wire;

pub use frame::FrameLibrary;
pub use load::LoadLibrary;
pub use recording::RecordingLibrary;
pub use store::StoreLibrary;
pub use wire::WireLibrary;

use model::Refusal;
use setpoint_store::{Lent, LentMut, Refused};
use words::Tables;

// Field by field and inlined, so that a measured step is the exported function's and no copying of slices beside it.
#[inline(always)]
fn lent(tables: &Tables) -> Lent<'_> {
    let Tables { counts, clients, links, keys, values, log, writes, reads } = tables;
    [counts, clients, links, keys, values, log, writes, reads]
}

#[inline(always)]
fn lent_mut(tables: &mut Tables) -> LentMut<'_> {
    let Tables { counts, clients, links, keys, values, log, writes, reads } = tables;
    [counts, clients, links, keys, values, log, writes, reads]
}

/// Every refusal has a number that the model knows.
fn refusal(Refused(number): Refused) -> Refusal {
    Refusal::from_number(number).unwrap_or_else(|| panic!("{number} is no refusal"))
}
