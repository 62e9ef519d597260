//! The wire frames of document 01: the messages of the 12 kinds, their writer and their reader; and document 02's recordings of frames.

mod bits;
pub mod lent;
pub mod link;
pub mod message;
mod reader;
pub mod recording;
mod writer;

pub use message::Message;
pub use reader::read;
pub use writer::write;

/// "frame field wrong", "message not writable": 11.
fn check(good: bool) -> Result<(), model::Refusal> {
    if good {
        Ok(())
    } else {
        Err(model::Refusal::BadField)
    }
}
