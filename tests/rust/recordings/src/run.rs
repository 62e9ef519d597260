//! A run with the frames that it delivers, by the model and by the proved steps on their tables.

use ffi::{StoreLibrary, WireLibrary};
use frames::link::message_on;
use model::line::{lines, step_of};
use model::{Outcome, Player, Refusal, Step};
use words::Tables;

/// More than any frame has.
const MOST_BYTES: usize = 2000;

/// A press that steps are taken on, with what stands on its links.
pub trait Recorder {
    fn take(&mut self, step: &Step) -> Outcome;

    /// The frame of what a link holds, where it holds something.
    fn frame_on(&self, client: u32, target: u32) -> Option<Vec<u8>>;

    /// Takes a step: what it answers, and the frame that it delivers where it is an accepted delivery.
    fn take_recorded(&mut self, step: &Step) -> (Outcome, Option<Vec<u8>>) {
        let frame = match *step {
            Step::DeliverRequest { client, target } | Step::DeliverReply { client, target } => self.frame_on(client, target),
            _ => None,
        };
        let outcome = self.take(step);
        let delivered = frame.filter(|_| outcome.is_ok());
        (outcome, delivered)
    }
}

/// The model, not opened yet.
pub fn by_model() -> Box<dyn Recorder> {
    Box::new(Player::default())
}

impl Recorder for Player {
    fn take(&mut self, step: &Step) -> Outcome {
        Player::take(self, step)
    }

    fn frame_on(&self, client: u32, target: u32) -> Option<Vec<u8>> {
        let link = self.store.as_ref()?.clients.get(client as usize)?.links.get(target as usize)?;
        let message = message_on(link, client as u8, target as u8)?;
        Some(frames::write(&message).expect("what stands on a link can be written"))
    }
}

/// The proved steps, and the proved writer of links' frames, on tables for any press.
struct Proved {
    tables: Tables,
    store: StoreLibrary,
    wire: WireLibrary,
}

/// The proved crates, not opened yet: no words of these tables are a press.
pub fn by_proved(store: StoreLibrary, wire: WireLibrary) -> Box<dyn Recorder> {
    Box::new(Proved { tables: Tables::filled(16, 16, 0), store, wire })
}

impl Recorder for Proved {
    fn take(&mut self, step: &Step) -> Outcome {
        self.store.take(&mut self.tables, step)
    }

    fn frame_on(&self, client: u32, target: u32) -> Option<Vec<u8>> {
        let mut bytes = vec![0; MOST_BYTES];
        let length = self.wire.write_link_frame(&self.tables, client, target, &mut bytes).ok()?;
        bytes.truncate(length);
        Some(bytes)
    }
}

/// A line of a schedule as it was played.
pub struct Played<'a> {
    pub number: usize,
    pub line: &'a [u8],
    pub outcome: Outcome,
    pub frame: Option<Vec<u8>>,
}

/// The lines of a schedule, each with its answer and the frame that it delivers.
pub fn played<'a>(text: &'a [u8], recorder: &mut dyn Recorder) -> Vec<Played<'a>> {
    let mut play = |(place, line): (usize, &'a [u8])| {
        let (outcome, frame) = match step_of(line) {
            Some(step) => recorder.take_recorded(&step),
            None => (Err(Refusal::Unreadable), None),
        };
        Played { number: place + 1, line, outcome, frame }
    };
    lines(text).enumerate().map(&mut play).collect()
}
