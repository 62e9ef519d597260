//! Loads on the lent tables: the next step as numbers, and a load played, its steps as rows of words in a lent list.

use crate::layout::Tables;
use crate::writing::write_changes;
use crate::{sound, store_of};
use model::load::Pick;
use model::{Refusal, Step};

/// How they cross, which the proved crate's callers share.
pub use setpoint_store::{LoadEnd, LoadPick};

/// A step's row: kind (0 a WRITE, 1 a READ, 2 a request, 3 a reply), client, the begin's mask or the target, and the WRITE's
/// setpoint, else 0. A WRITE's badge has no word: in a load it is 0.
pub const STEP_WORDS: usize = 4;

/// The answer where no step is acceptable: no refusal, and no step.
pub const NO_STEP: u32 = 256;

/// The row of a step that a load gives.
fn row_of(step: &Step) -> [u32; STEP_WORDS] {
    match *step {
        Step::BeginWrite { client, mask, ref setpoints, .. } => [0, client, mask, setpoints[0]],
        Step::BeginRead { client, mask } => [1, client, mask, 0],
        Step::DeliverRequest { client, target } => [2, client, target, 0],
        Step::DeliverReply { client, target } => [3, client, target, 0],
        Step::Open { .. } => unreachable!("a load opens nothing"),
        Step::Lose { .. } | Step::Resend { .. } => unreachable!("a load loses nothing"),
    }
}

/// The next step on any tables: answer 0, the new seed and the step's row; or 2 or 256, the seed as it was and zeros.
pub fn next_step(tables: &Tables, seed: u32) -> LoadPick {
    let none = |answer| LoadPick { answer, seed, kind: 0, client: 0, second: 0, setpoint: 0 };
    if !sound(tables) {
        return none(Refusal::Unsound as u32);
    }
    let Some(Pick { seed, step }) = store_of(tables).next_step(seed) else {
        return none(NO_STEP);
    };
    let [kind, client, second, setpoint] = row_of(&step);
    LoadPick { answer: 0, seed, kind, client, second, setpoint }
}

/// Plays a load on any tables and lists its steps at the front of the list: answer 0, the number of steps and the seed that is next; or 2,
/// then 12 "where the list is shorter than the wanted length needs", with no steps, the seed as it was and all as before.
pub fn play_load(tables: &mut Tables, seed: u32, length: u32, list: &mut [u32]) -> LoadEnd {
    let refused = |refusal| LoadEnd { answer: refusal as u32, steps: 0, seed };
    if !sound(tables) {
        return refused(Refusal::Unsound);
    }
    if list.len() < STEP_WORDS * length as usize {
        return refused(Refusal::NoRoom);
    }
    let mut store = store_of(tables);
    let mut before = store.clone();
    let mut rows = list.chunks_exact_mut(STEP_WORDS);
    // Step by step, since a link that was used and is empty again has words that were written.
    let end = store.play_load(seed, length, |after, step| {
        write_changes(tables, &before, after);
        before.take(&step).expect("the step is acceptable");
        rows.next().expect("as many rows as steps").copy_from_slice(&row_of(&step));
    });
    LoadEnd { answer: 0, steps: end.steps, seed: end.seed }
}
