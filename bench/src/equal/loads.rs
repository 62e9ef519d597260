//! Loads, from openings to their ends and in parts, and on damaged tables.

use super::damage::{damage, fill_to_limits};
use super::store::fresh_tables;
use super::{reached, Tally};
use crate::calls;
use ffi::LoadLibrary;
use model::Step;
use schedules::{Generator, Random};
use setpoint_store::StoreLibrary;
use words::layout::METHOD;
use words::load::STEP_WORDS;
use words::Tables;

const RUNS: u64 = 400;
/// One of so many loads goes on until no step is acceptable.
const WHOLE: u64 = 15;
const DUE: [&str; 5] = ["no 2", "no 12", "to the end", "cut", "on tables of method 1"];

pub fn compare(store: StoreLibrary, library: LoadLibrary) {
    let mut counts = Tally::default();
    for seed in 0..RUNS {
        let (mut generator, mut random) = (Generator::new(seed), Random::new(!seed));
        let opening = generator.opening();
        let Step::Open { method, servers, clients, setpoints } = &opening else {
            unreachable!("openings open");
        };
        let mut tables = fresh_tables(&opening, &mut random);
        let opened = store.open(tables.all_mut().map(Vec::as_mut_slice), *method, *servers, *clients, setpoints);
        assert_eq!(opened, 0);
        for _ in 0..8 {
            let length = random.below(200) as u32;
            part(library, &mut tables, length, &mut random, &mut counts);
            let mut odd = tables.clone();
            match random.below(4) {
                0 => fill_to_limits(&mut odd, &mut random),
                1 => odd.counts[METHOD] = 1,
                _ => damage(&mut odd, &mut random),
            }
            part(library, &mut odd, 60, &mut random, &mut counts);
        }
        if seed.is_multiple_of(WHOLE) {
            part(library, &mut tables, 20_000, &mut random, &mut counts);
        }
    }
    reached("loads", &counts, &DUE);
}

/// A load of a wanted length, with a list that is long enough or a word too short.
fn part(library: LoadLibrary, tables: &mut Tables, length: u32, random: &mut Random, counts: &mut Tally) {
    let seed = random.word();
    let before = tables.clone();
    let mut list = vec![random.word(); (STEP_WORDS * length as usize).saturating_sub(usize::from(random.chance(1, 20)))];
    let (mut fast, mut fast_list) = (tables.clone(), list.clone());
    let expected = library.play(tables, seed, length, &mut list);
    let found = calls::play_load(&mut fast, seed, length, &mut fast_list);
    assert_eq!(found, expected, "a load of {length} from {seed} on {before:?}");
    assert!(fast_list == list && fast == *tables, "a load of {length} from {seed} on {before:?}");
    counts.count(&match expected.answer {
        0 if expected.steps > 0 && tables.counts[METHOD] == 1 => "on tables of method 1".into(),
        0 if expected.steps < length => "to the end".into(),
        0 => "cut".into(),
        refusal => format!("no {refusal}"),
    });
}
