//! The fast Rust beside the proved exports and program: answers, and every word, byte and slice of both sides, must be equal. What times
//! are compared with does the same work.

mod frames;
mod loads;
mod program;
mod store;

// How tables and messages are made odd stands with the comparisons with the model.
#[allow(dead_code)]
#[path = "../../../tests/rust/compare/src/damage.rs"]
mod damage;
#[allow(dead_code)]
#[path = "../../../tests/rust/compare/src/messages.rs"]
mod messages;
#[path = "../../../tests/rust/compare/src/tally.rs"]
mod tally;

use tally::Tally;

/// Compares all parts; a difference, or what was not reached, ends the program with a message.
pub fn report(program: &[String]) {
    let linked = "the static libraries are linked: run tests/rust/build-store";
    let store_library = setpoint_store::StoreLibrary::linked().expect(linked);
    store::compare(store_library);
    loads::compare(store_library, ffi::LoadLibrary::linked().expect(linked));
    frames::compare(ffi::FrameLibrary::linked().expect(linked));
    program::compare(program);
}

/// Says what was compared, once all that is due has occurred.
fn reached(what: &str, counts: &Tally, due: &[&str]) {
    if let Err(missing) = counts.require(due) {
        panic!("{what}: {missing}");
    }
    println!("{what}, equal: {counts}");
}
