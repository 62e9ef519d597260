//! Two recordings of one wire, compared by crate `recordings`.

use crate::refusal;
use frames::recording::{Compared, Recording};
use model::Refusal;
use setpoint_store::{compared, Compared as Crossed, Recording as Lent};

/// A handle that exists only where the library is linked.
#[derive(Clone, Copy, Debug)]
pub struct RecordingLibrary(setpoint_store::RecordingLibrary);

impl RecordingLibrary {
    pub fn linked() -> Option<RecordingLibrary> {
        setpoint_store::RecordingLibrary::linked().map(RecordingLibrary)
    }

    /// Compares two recordings.
    pub fn compare(self, one: &Recording, other: &Recording) -> Result<Compared, Refusal> {
        answer(self.number(one, other))
    }

    /// The number as it crosses, for measurements.
    pub fn number(self, one: &Recording, other: &Recording) -> u64 {
        self.0.number(lent(one), lent(other))
    }
}

fn lent(recording: &Recording) -> Lent<'_> {
    Lent { lengths: &recording.lengths, bytes: &recording.bytes }
}

/// What a number says, as it crosses.
pub fn answer(number: u64) -> Result<Compared, Refusal> {
    match compared(number).map_err(refusal)? {
        Crossed::Agree => Ok(Compared::Agree),
        Crossed::Differ { client, target, place } => Ok(Compared::Differ { client, target, place: place as usize }),
    }
}
