//! Each kind of step: on tables known to be sound, and through the public step that checks them.

use crate::calls;
use crate::clock::{beside, least_of_passes, Clock, PASSES};
use crate::goals;
use crate::plans::{in_turn, Plan};
use crate::sides::{measured, opened_tables, Measured};
use crate::table::{print, ratio, time};
use ffi::StoreLibrary;
use model::Step;
use std::hint::black_box;

const HEADS: [&str; 7] = ["step", "inner ns", "fast ns", "ratio", "checked ns", "fast ns", "ratio"];
/// The methods that presses are opened by.
pub const METHODS: [u32; 2] = [2, 3];

/// Servers, clients, how many WRITEs and READs, and the rounds of a pass.
pub const PRESSES: [(u32, u32, usize, usize); 2] = [(4, 4, 60, 50), (16, 16, 255, 10)];

pub fn report(clock: &Clock, library: StoreLibrary) {
    let presses = PRESSES.map(|(servers, clients, times, rounds)| {
        let plans: Vec<Plan> = METHODS.iter().map(|&method| in_turn(method, servers, clients, times)).collect();
        (plans, rounds)
    });
    let one_pass = |_| presses.iter().map(|(plans, rounds)| one_press(clock, library, plans, *rounds)).collect();
    let passes: Vec<Vec<Vec<Measured>>> = (0..PASSES).map(one_pass).collect();
    for (place, (press, (plans, _))) in PRESSES.iter().zip(&presses).enumerate() {
        let (servers, clients, times, _) = press;
        let title =
            format!("Steps, {servers} servers and {clients} clients, {times} WRITEs and {times} READs of all servers in turn");
        let results: Vec<&[Measured]> = passes.iter().map(|pass| &pass[place][..]).collect();
        print(&title, &HEADS, &rows(library, plans, &results));
    }
    let plans: Vec<&Plan> = presses.iter().flat_map(|(plans, _)| plans).collect();
    let times = least_of_passes(&plans, |plan| whole_plan(library, plan));
    let rows: Vec<Vec<String>> = plans.iter().zip(times).map(whole_row).collect();
    print("Whole plans from their openings, without fences, ns a step", &["plan", "inner ns", "fast ns", "ratio"], &rows);
}

/// The mean of a plan's steps, one behind the other: where the counter is coarse it tells more than single steps do.
fn whole_plan(library: StoreLibrary, plan: &Plan) -> [f64; 2] {
    let mut tables = opened_tables(library, &plan.opening);
    let mut fast_tables = tables.clone();
    // The steps start at an opening, and steps keep tables sound.
    let proved = || {
        library.number(&mut tables, &plan.opening);
        for step in &plan.steps {
            black_box(unsafe { library.number_sound(&mut tables, step) });
        }
    };
    let fast = || {
        calls::number_checked(&mut fast_tables, &plan.opening);
        for step in &plan.steps {
            black_box(unsafe { calls::number(&mut fast_tables, step) });
        }
    };
    let (proved, fast) = beside(proved, fast);
    [proved, fast].map(|time| time / (1 + plan.steps.len()) as f64)
}

fn whole_row((plan, [proved, fast]): (&&Plan, [f64; 2])) -> Vec<String> {
    let Step::Open { method, servers, clients, .. } = plan.opening else {
        unreachable!("openings open");
    };
    let name = format!("method {method}, {servers} servers, {clients} clients");
    vec![name, time(proved), time(fast), ratio(proved, fast, goals::NONE)]
}

fn one_press(clock: &Clock, library: StoreLibrary, plans: &[Plan], rounds: usize) -> Vec<Measured> {
    plans.iter().map(|plan| measured(clock, library, plan, rounds)).collect()
}

/// The means of all steps of a kind, over plans of the methods, each the least of several passes. A checked step is for the most part the
/// check.
fn rows(library: StoreLibrary, plans: &[Plan], passes: &[&[Measured]]) -> Vec<Vec<String>> {
    let mut rows = vec![opening_row(library, &plans[1])];
    for kind in kinds(plans) {
        let mean = |side: fn(&Measured) -> &Vec<f64>| {
            let of_pass = |results: &&[Measured]| mean_of(kind, plans, results.iter().map(side));
            passes.iter().map(of_pass).fold(f64::INFINITY, f64::min)
        };
        let (inner, fast) = (mean(|result| &result.inner), mean(|result| &result.fast));
        let (checked, fast_checked) = (mean(|result| &result.checked), mean(|result| &result.fast_checked));
        let ratio_inner = ratio(inner, fast, goals::of_step(kind));
        let ratio_checked = ratio(checked, fast_checked, goals::CHECK);
        let [inner, fast, checked, fast_checked] = [inner, fast, checked, fast_checked].map(time);
        rows.push(vec![kind.to_string(), inner, fast, ratio_inner, checked, fast_checked, ratio_checked]);
    }
    rows
}

/// An opening has no inner step.
fn opening_row(library: StoreLibrary, plan: &Plan) -> Vec<String> {
    let mut tables = opened_tables(library, &plan.opening);
    let mut fast_tables = tables.clone();
    let open = || calls::number_checked(&mut fast_tables, &plan.opening);
    let (proved, fast) = beside(|| library.number(&mut tables, &plan.opening), open);
    let none = || "".to_string();
    vec!["open".into(), none(), none(), none(), time(proved), time(fast), ratio(proved, fast, goals::of_step("open"))]
}

/// The kinds of all plans, in the order in which they first stand there.
pub fn kinds(plans: &[Plan]) -> Vec<&'static str> {
    let mut found = Vec::new();
    for &kind in plans.iter().flat_map(|plan| &plan.kinds) {
        if !found.contains(&kind) {
            found.push(kind);
        }
    }
    found
}

fn mean_of<'a>(kind: &str, plans: &[Plan], times: impl Iterator<Item = &'a Vec<f64>>) -> f64 {
    let (mut sum, mut number) = (0.0, 0.0);
    for (plan, times) in plans.iter().zip(times) {
        for (_, time) in plan.kinds.iter().zip(times).filter(|(&other, _)| other == kind) {
            sum += time;
            number += 1.0;
        }
    }
    sum / number
}
