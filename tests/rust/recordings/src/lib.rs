//! Recordings of runs: the frame of every delivered request and reply, as it stood on its link ahead of its delivery; and the file of a
//! recording.

pub mod file;
pub mod run;

pub use run::{by_model, by_proved, played, Played, Recorder};
