//! The register's listing as rows of words in a lent list.

use crate::layout::Tables;
use crate::{sound, store_of};
use model::history::{listing, Listed};
use model::{ReadRecord, Refusal, WriteRecord};

/// A line is a row of eight words: kind (0 a WRITE, 1 a READ), tag, client, count or mask, begin, end, overlap, badge.
pub const LINE_WORDS: usize = 8;

/// Lists the register at the front of the list: how many rows, or 2 or 12 with the list as before.
pub fn list_register(tables: &Tables, list: &mut [u32]) -> Result<usize, Refusal> {
    if !sound(tables) {
        return Err(Refusal::Unsound);
    }
    let store = store_of(tables);
    let lines = listing(&store.writes, &store.reads);
    if list.len() < LINE_WORDS * lines.len() {
        return Err(Refusal::NoRoom);
    }
    for (row, line) in list.chunks_exact_mut(LINE_WORDS).zip(&lines) {
        row.copy_from_slice(&words_of(line));
    }
    Ok(lines.len())
}

/// A WRITE without end has end 0, no WRITE has an overlap and no READ a badge: these are 0.
fn words_of(line: &Listed) -> [u32; LINE_WORDS] {
    match *line {
        Listed::Write(WriteRecord { client, count, tag, begin, end, badge }) => {
            [0, *tag as u32, *client as u32, u32::from(*count), *begin, end.unwrap_or(0), 0, u32::from(*badge)]
        }
        Listed::Read { record: ReadRecord { client, mask, tag, begin, .. }, end, overlap } => {
            [1, *tag as u32, *client as u32, *mask, *begin, end, overlap as u32, 0]
        }
    }
}
