//! Measures the proved crates beside Rust that was written for speed, and prints the tables of docs/BENCHMARKS.md; and holds the two to
//! each other.
//!
//!     bench PROVED-PROGRAM FAST-PROGRAM [PART...]
//!     bench equal PROVED-PROGRAM [ARGUMENT...]

mod calls;
mod check;
mod clock;
mod equal;
mod frame_speed;
mod goals;
mod growth;
mod instructions;
mod load_speed;
mod plans;
mod program;
mod recording_speed;
mod sides;
mod steps;
mod table;
mod two_cursors;

use clock::Clock;
use ffi::{FrameLibrary, LoadLibrary, RecordingLibrary, StoreLibrary};
use std::path::Path;

fn main() {
    let given: Vec<String> = std::env::args().skip(1).collect();
    if let [part, program @ ..] = &given[..] {
        if part == "equal" {
            return equal::report(program);
        }
    }
    let [proved, fast, parts @ ..] = &given[..] else {
        panic!("bench PROVED-PROGRAM FAST-PROGRAM [PART...] | bench equal PROVED-PROGRAM [ARGUMENT...]");
    };
    // Frames and recordings need their own library alone.
    let store = || StoreLibrary::linked().expect("libstore_exports.a is linked: run bench/run");
    let frame = || FrameLibrary::linked().expect("libframe_exports.a is linked: run bench/run");
    let load = || LoadLibrary::linked().expect("libworkload_exports.a is linked: run bench/run");
    let recording = || RecordingLibrary::linked().expect("librecording_exports.a is linked: run bench/run");
    match parts {
        [part, rest @ ..] if part == "count" => {
            instructions::count_of_nothing();
            if rest.is_empty() {
                instructions::count_of_steps(store());
            }
            instructions::count_of_frames(frame());
            if rest.is_empty() {
                instructions::count_of_loads(store(), load());
            }
            return;
        }
        [part, folder] if part == "schedules" => return instructions::write_schedules(Path::new(folder)),
        [part, folder] if part == "instructions" => return instructions::report(Path::new(folder)),
        _ => {}
    }
    let clock = Clock::calibrated();
    const PARTS: [&str; 7] = ["steps", "growth", "check", "frames", "load", "recordings", "program"];
    assert!(parts.iter().all(|part| PARTS.contains(&part.as_str())), "the parts are {PARTS:?}");
    let wanted = |part: &str| parts.is_empty() || parts.iter().any(|word| word == part);
    if wanted("steps") {
        steps::report(&clock, store());
    }
    if wanted("growth") {
        growth::report(&clock, store());
    }
    if wanted("check") {
        check::report(store());
    }
    if wanted("frames") {
        frame_speed::report(frame());
    }
    if wanted("load") {
        load_speed::report(store(), load());
    }
    if wanted("recordings") {
        recording_speed::report(recording());
    }
    if wanted("program") {
        program::report(proved, fast);
    }
}
