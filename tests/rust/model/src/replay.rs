//! The yard program: plays a schedule and prints each line's answer, then the register.

use crate::answer::{printed, Outcome, Refusal};
use crate::history;
use crate::line::{lines, step_of};
use crate::step::Step;
use crate::store::Store;
use crate::Answer;

/// A store that may not have been opened yet.
#[derive(Clone, Debug, Default)]
pub struct Player {
    pub store: Option<Store>,
}

impl Player {
    /// "Before any opening, steps give 2."
    pub fn take(&mut self, step: &Step) -> Outcome {
        if let Some(store) = &mut self.store {
            return store.take(step);
        }
        let Step::Open { method, servers, clients, setpoints } = step else {
            return Err(Refusal::Unsound);
        };
        self.store = Some(Store::open(*method, *servers, *clients, setpoints)?);
        Ok(Answer::Ok)
    }

    /// "A line of any other shape ... is no step and gives 13."
    pub fn take_line(&mut self, line: &[u8]) -> Outcome {
        match step_of(line) {
            Some(step) => self.take(&step),
            None => Err(Refusal::Unreadable),
        }
    }

    /// The register of the last opening.
    pub fn register(&self) -> String {
        match &self.store {
            Some(store) => history::printed(&store.writes, &store.reads),
            None => String::new(),
        }
    }
}

/// What the yard program prints for this input.
pub fn replay(text: &[u8]) -> Vec<u8> {
    let mut player = Player::default();
    let mut output = String::new();
    for (place, line) in lines(text).enumerate() {
        let outcome = player.take_line(line);
        output.push_str(&format!("{} {}\n", place + 1, printed(&outcome)));
    }
    output.push_str(&player.register());
    output.into_bytes()
}
