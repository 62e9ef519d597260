//! Tables moved between yards: the lent tables of a press as a text, and schedules played from there and to there. The steps, the check of
//! the tables and the register's listing are those of the proved crates, through their exports; reading lines and printing answers is the
//! model's, of which nothing is proved. Without the exports, or where it is asked, the model does all of it.

mod play;
mod text;

pub use play::{play, By};
pub use text::{lengthened, read, written};

/// Why no tables were taken up or saved: refused by 2, in words.
#[derive(Clone, Debug, PartialEq, Eq)]
pub struct Refused(pub String);
