//! Plain Rust written for speed, which `bench` holds the proved crates against.

pub mod fast;
