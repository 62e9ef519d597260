//! How many times as long as the Rust written for speed the proved side may take.

/// No goal.
pub const NONE: f64 = f64::INFINITY;
pub const CHECK: f64 = 2.0;
pub const PROGRAM: f64 = 1.3;
/// A step that is short on every press.
pub const SHORT: f64 = 1.3;
/// The end of a READ that has its setpoints, and the search for a key among 256.
pub const LAST_GOT: f64 = 1.5;
pub const SEARCH: f64 = 1.5;
/// C's end, and the keys of all servers from the whole log.
pub const CHOICE: f64 = 2.0;
pub const KEYS: f64 = 2.0;

/// A kind of step, by its name in the plans.
pub fn of_step(kind: &str) -> f64 {
    match kind {
        "open" => NONE,
        "request get" => SEARCH,
        "reply got, the last: read" => LAST_GOT,
        "reply all or log, the last: read" => CHOICE,
        _ => SHORT,
    }
}

/// A frame of so many entries; one with few has no goal.
pub fn of_frame(entries: u32) -> f64 {
    match entries {
        0 => 3.0,
        1..16 => NONE,
        _ => 4.0,
    }
}
