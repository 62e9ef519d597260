//! Documents 01 and 02 (E1 to E4, E6, E7, E10) in plain Rust: the store, its seven steps, the history, the program that plays a schedule, and
//! loads.
//! It is written from the papers and the readings in docs/DECISIONS.md, and shares no code with the proved crates.
//!
//! A press is a `Store` here, a station a server, a panel a client, the head the coordinator, the register the history.

pub mod answer;
mod begin;
mod choice;
pub mod client;
mod former;
pub mod history;
pub mod key;
pub mod line;
pub mod link;
pub mod load;
mod loss;
pub mod replay;
mod reply;
mod request;
pub mod step;
pub mod store;

pub use answer::{Answer, Outcome, Refusal, Shown};
pub use client::{Client, State};
pub use history::{ReadRecord, WriteRecord};
pub use key::{Entry, Key, Latest, Version};
pub use link::{Link, Reply, Request};
pub use replay::{replay, Player};
pub use step::Step;
pub use store::{Method, Store};

/// Target 16 means the head.
pub const COORDINATOR: usize = 16;
/// A station holds at most 256 versions, and the log tags 0 to 255.
pub const MOST_HELD: usize = 256;
/// At most 255 WRITEs and 255 READs begin after an opening.
pub const MOST_BEGUN: usize = 255;
