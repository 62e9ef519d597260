//! A schedule played on tables.

use crate::Refused;
use ffi::{StoreLibrary, WireLibrary};
use model::answer::printed;
use model::line::{lines, step_of};
use model::{Outcome, Refusal, Step};
use std::io::{self, Write};
use words::register::LINE_WORDS;
use words::Tables;

/// Rows of the longest register: 255 WRITEs and 255 READs.
const MOST_ROWS: usize = 510;

/// What takes the steps.
#[derive(Clone, Copy, Debug)]
pub enum By {
    Proved(StoreLibrary, WireLibrary),
    Model,
}

impl By {
    /// The proved crates, where their libraries are linked.
    pub fn proved() -> Option<By> {
        Some(By::Proved(StoreLibrary::linked()?, WireLibrary::linked()?))
    }

    pub fn sound(self, tables: &Tables) -> Result<(), Refused> {
        let sound = match self {
            By::Proved(store, _) => store.sound(tables),
            By::Model => words::sound(tables),
        };
        sound.then_some(()).ok_or_else(|| Refused("the tables are not sound".into()))
    }

    fn take(self, tables: &mut Tables, step: &Step) -> Outcome {
        match self {
            By::Proved(store, _) => store.take(tables, step),
            By::Model => words::take(tables, step),
        }
    }

    fn list(self, tables: &Tables, list: &mut [u32]) -> Result<usize, Refusal> {
        match self {
            By::Proved(_, wire) => wire.list_register(tables, list),
            By::Model => words::register::list_register(tables, list),
        }
    }
}

/// Plays a schedule and prints what the yard program prints: each line's answer, then the register. Tables that hold no press, as before
/// any opening, have none.
pub fn play(by: By, tables: &mut Tables, schedule: &[u8], out: &mut impl Write) -> io::Result<()> {
    for (place, line) in lines(schedule).enumerate() {
        let outcome = step_of(line).ok_or(Refusal::Unreadable).and_then(|step| by.take(tables, &step));
        writeln!(out, "{} {}", place + 1, printed(&outcome))?;
    }
    let mut list = vec![0; LINE_WORDS * MOST_ROWS];
    let rows = by.list(tables, &mut list).unwrap_or(0);
    for row in list.chunks_exact(LINE_WORDS).take(rows) {
        let &[kind, tag, client, count, begin, end, overlap, badge] = row else { unreachable!("a row has eight words") };
        match (kind, end) {
            (0, 0) => writeln!(out, "W {tag} {client} {count} {begin} - {badge}")?,
            (0, _) => writeln!(out, "W {tag} {client} {count} {begin} {end} {badge}")?,
            _ => writeln!(out, "R {tag} {client} {begin} {end} {overlap}")?,
        }
    }
    out.flush()
}
