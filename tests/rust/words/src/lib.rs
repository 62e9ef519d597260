//! The lent tables of words, in the layout of docs/DECISIONS.md: soundness, and the model's steps and loads on them.

pub mod layout;
pub mod load;
mod reading;
pub mod register;
pub mod sound;
mod writing;

use model::{Answer, Outcome, Refusal, Step, Store};

pub use layout::Tables;
pub use reading::store_of;
pub use sound::{long_enough, sound};

/// Takes a step on any tables: refused with all words as before, or answered with the words that the model's step changes.
pub fn take(tables: &mut Tables, step: &Step) -> Outcome {
    if let Step::Open { method, servers, clients, setpoints } = step {
        return open(tables, *method, *servers, *clients, setpoints);
    }
    take_by(tables, |store| store.take(step))
}

/// A step of a run as document 02's E10 speaks of it: what the former rules accept of openings and begins of method 1 goes by them, and all
/// else by today's.
pub fn take_mixed(tables: &mut Tables, step: &Step) -> Outcome {
    match step {
        Step::Open { method: 1, servers, clients, setpoints } => match Store::open_mixed(1, *servers, *clients, setpoints) {
            Ok(store) if long_enough(tables, store.servers.len(), store.clients.len()) => write_opening(tables, store),
            _ => take(tables, step),
        },
        Step::Open { .. } => take(tables, step),
        _ => take_by(tables, |store| store.take_mixed(step)),
    }
}

/// The same of any step but an opening, taken by this function on the store that the tables hold.
pub fn take_by(tables: &mut Tables, take: impl FnOnce(&mut Store) -> Outcome) -> Outcome {
    if !sound(tables) {
        return Err(Refusal::Unsound);
    }
    let before = store_of(tables);
    let mut after = before.clone();
    let answer = take(&mut after)?;
    writing::write_changes(tables, &before, &after);
    Ok(answer)
}

fn open(tables: &mut Tables, method: u32, servers: u32, clients: u32, setpoints: &[u32]) -> Outcome {
    write_opening(tables, Store::open(method, servers, clients, setpoints)?)
}

/// An opening asks only that the tables are long enough for the new k and p.
fn write_opening(tables: &mut Tables, store: Store) -> Outcome {
    if !long_enough(tables, store.servers.len(), store.clients.len()) {
        return Err(Refusal::Unsound);
    }
    writing::write_opening(tables, &store);
    Ok(Answer::Ok)
}
