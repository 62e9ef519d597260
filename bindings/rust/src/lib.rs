//! The setpoint store as Rust calls it, through the static libraries of `store_exports`, `sound_exports`, `frame_exports`, `wire_exports`,
//! `workload_exports` and `recording_exports`, which `tests/rust/build-store` builds. A slice crosses as a pointer and a length in elements,
//! an answer as a number. Where a library was not built, its handle is not to be had. docs/INTEGRATING.md says how it is used.

mod answer;
mod exported;
mod frame;
mod load;
mod recording;
mod store;
mod tables;
mod wire;

pub use answer::{accepted, answered, Arrival, Crossing, Refused};
pub use frame::{Fixed, FrameLibrary, Parts};
pub use load::{LoadEnd, LoadLibrary, LoadPick};
pub use recording::{compared, Compared, Recording, RecordingLibrary};
pub use store::StoreLibrary;
pub use tables::{Lent, LentMut, Tables};
pub use wire::WireLibrary;
