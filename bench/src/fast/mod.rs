//! The setpoint store's steps, check of tables, load, frame codec and program as they would be written for speed alone, on the same lent
//! tables of words and with the same arguments as the proved exports: what the machine can do. The readable model in `tests/rust` is what
//! results are compared with; this is what times are compared with, and `bench equal` holds it to the proved exports word by word.

pub mod check;
mod choice;
pub mod exports;
pub mod frame;
pub mod load;
pub mod opening;
pub mod play;
mod printer;
mod search;
pub mod steps;
pub mod tables;
