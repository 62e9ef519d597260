//! The check of sound tables alone, by servers, clients and how much they hold.

use crate::calls;
use crate::clock::{beside, least_of_passes};
use crate::goals;
use crate::plans::Plan;
use crate::sides::opened_tables;
use crate::table::{print, ratio, time};
use ffi::StoreLibrary;
use words::Tables;

const HEADS: [&str; 6] = ["servers", "clients", "versions of each server", "proved ns", "fast ns", "ratio"];

/// Servers, clients and versions of each server, with tables that hold so many.
pub fn cases(library: StoreLibrary) -> Vec<([u32; 3], Tables)> {
    let presses = [(1, 2), (4, 4), (16, 2), (16, 16)];
    let sizes = presses.iter().flat_map(|&(servers, clients)| [1, 64, 256].map(|versions| [servers, clients, versions]));
    sizes.map(|size| (size, filled(library, size))).collect()
}

pub fn report(library: StoreLibrary) {
    let cases = cases(library);
    let times = least_of_passes(&cases, |(_, tables)| beside(|| library.sound(tables), || calls::sound(tables)).into());
    let row = |((size, _), [proved, fast]): (&([u32; 3], Tables), [f64; 2])| {
        let numbers = size.map(|number| number.to_string());
        [&numbers[..], &[time(proved), time(fast), ratio(proved, fast, goals::CHECK)]].concat()
    };
    let rows: Vec<Vec<String>> = cases.iter().zip(times).map(row).collect();
    print("The check of sound tables", &HEADS, &rows);
}

/// Tables after WRITEs of all servers, so that each server and the log hold this many.
fn filled(library: StoreLibrary, [servers, clients, entries]: [u32; 3]) -> Tables {
    let mut plan = Plan::opened(2, servers, clients);
    for _ in 1..entries {
        plan.write(1, plan.all());
    }
    let mut tables = opened_tables(library, &plan.opening);
    for step in &plan.steps {
        library.number(&mut tables, step);
    }
    assert!(library.sound(&tables) && calls::sound(&tables));
    tables
}
