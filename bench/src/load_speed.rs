//! Loads: the proved load beside the fast one, both on lent tables, which they check once, and with their steps listed.

use crate::calls;
use crate::clock::PASSES;
use crate::goals;
use crate::sides::opened_tables;
use crate::table::{print, ratio, time};
use ffi::{LoadLibrary, StoreLibrary};
use model::Step;
use std::time::{Duration, Instant};
use words::load::{LoadEnd, STEP_WORDS};
use words::Tables;

const STEPS: u32 = 100_000;
const HEADS: [&str; 5] = ["press", "openings", "proved ns", "fast ns", "ratio"];

/// Method, servers, clients, and the first seed; a load from a new opening goes on with the seed that the one before it left.
pub const PRESSES: [[u32; 4]; 6] = [[2, 1, 2, 2], [3, 1, 2, 3], [2, 4, 4, 5], [3, 4, 4, 6], [2, 16, 16, 8], [3, 16, 16, 9]];

/// Measures a call in some way.
pub type Meter<'a> = dyn FnMut(&mut dyn FnMut()) + 'a;

pub fn report(store: StoreLibrary, library: LoadLibrary) {
    let rows: Vec<Vec<String>> = PRESSES.iter().map(|press| row(store, library, press)).collect();
    print("Loads of 100,000 steps, opened anew where one has ended, ns a step", &HEADS, &rows);
}

/// The least of several passes, in which the two sides take turns.
fn row(store: StoreLibrary, library: LoadLibrary, press: &[u32; 4]) -> Vec<String> {
    assert_same(store, library, press);
    let (mut proved, mut fast, mut openings) = (f64::INFINITY, f64::INFINITY, 0);
    for _ in 0..PASSES {
        proved = proved.min(nanoseconds(|meter| openings = by_proved(store, library, press, STEPS, meter)));
        fast = fast.min(nanoseconds(|meter| assert_eq!(by_fast(store, press, STEPS, meter), openings)));
    }
    vec![name(press), openings.to_string(), time(proved), time(fast), ratio(proved, fast, goals::NONE)]
}

pub fn name([method, servers, clients, _]: &[u32; 4]) -> String {
    format!("method {method}, {servers} servers, {clients} clients")
}

/// The time of a step, over all loads that are metered.
fn nanoseconds(loads: impl FnOnce(&mut Meter)) -> f64 {
    let mut total = Duration::ZERO;
    loads(&mut |call| {
        let started = Instant::now();
        call();
        total += started.elapsed();
    });
    total.as_nanos() as f64 / f64::from(STEPS)
}

fn opening([method, servers, clients, _]: &[u32; 4]) -> Step {
    Step::Open { method: *method, servers: *servers, clients: *clients, setpoints: vec![0; *servers as usize] }
}

/// A load to its end leaves the same on both sides.
fn assert_same(store: StoreLibrary, library: LoadLibrary, press: &[u32; 4]) {
    let (seed, list) = (press[3], || vec![0; STEP_WORDS * STEPS as usize]);
    let mut tables = opened_tables(store, &opening(press));
    let mut fast_tables = tables.clone();
    let found = library.play(&mut tables, seed, STEPS, &mut list());
    assert_eq!(found, calls::play_load(&mut fast_tables, seed, STEPS, &mut list()));
    assert!(tables == fast_tables, "both sides play the same load");
}

/// Plays a load of a wanted length from a seed on tables, with a list for its steps.
type Play<'a> = dyn Fn(&mut Tables, u32, u32, &mut [u32]) -> LoadEnd + 'a;

/// Loads one after another, each from a new opening, until they have had so many steps: the number of openings.
fn opened_anew(store: StoreLibrary, press: &[u32; 4], steps: u32, play: &Play, meter: &mut Meter) -> usize {
    let (mut left, mut seed, mut openings) = (steps, press[3], 0);
    let mut list = vec![0; STEP_WORDS * steps as usize];
    while left > 0 {
        let mut tables = opened_tables(store, &opening(press));
        let mut end = LoadEnd { answer: 0, steps: 0, seed };
        meter(&mut || end = play(&mut tables, seed, left, &mut list));
        assert!(end.steps > 0);
        (left, seed, openings) = (left - end.steps, end.seed, openings + 1);
    }
    openings
}

pub fn by_proved(store: StoreLibrary, library: LoadLibrary, press: &[u32; 4], steps: u32, meter: &mut Meter) -> usize {
    let play = |tables: &mut Tables, seed: u32, left: u32, list: &mut [u32]| library.play(tables, seed, left, list);
    opened_anew(store, press, steps, &play, meter)
}

pub fn by_fast(store: StoreLibrary, press: &[u32; 4], steps: u32, meter: &mut Meter) -> usize {
    opened_anew(store, press, steps, &calls::play_load, meter)
}
