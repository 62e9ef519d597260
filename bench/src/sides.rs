//! The sides that are measured on a plan, each from a new opening: by the mean ticks of each step over several rounds, or by another meter.

use crate::calls;
use crate::clock::{elapsed_ticks, undisturbed_mean, Clock};
use crate::plans::Plan;
use ffi::StoreLibrary;
use model::Step;
use words::Tables;

/// The nanoseconds of each step, in the order of the plan.
pub struct Measured {
    pub inner: Vec<f64>,
    pub fast: Vec<f64>,
    pub checked: Vec<f64>,
    pub fast_checked: Vec<f64>,
}

/// All four sides, each for several rounds.
pub fn measured(clock: &Clock, library: StoreLibrary, plan: &Plan, rounds: usize) -> Measured {
    let meter = Mean { clock, rounds };
    Measured {
        inner: inner(&meter, library, plan),
        fast: fast(&meter, library, plan),
        checked: checked(&meter, library, plan),
        fast_checked: fast_checked(&meter, library, plan),
    }
}

/// How the steps of a plan are measured on a side, which says how a plan starts and how a step is taken.
pub trait Meter {
    type Told;
    fn play<S, R>(&self, plan: &Plan, fresh: impl Fn() -> S, take: impl Fn(&mut S, &Step) -> R) -> Self::Told;
}

/// The proved and the fast step alone, the sum of a plan's last steps.
pub fn last_steps(clock: &Clock, library: StoreLibrary, plan: &Plan, steps: usize, rounds: usize) -> [f64; 2] {
    let sum = |times: Vec<f64>| times[times.len() - steps..].iter().sum();
    let meter = Mean { clock, rounds };
    [sum(inner(&meter, library, plan)), sum(fast(&meter, library, plan))]
}

/// The proved step on tables known to be sound.
pub fn inner<M: Meter>(meter: &M, library: StoreLibrary, plan: &Plan) -> M::Told {
    // The plan's steps start at an opening, and steps keep tables sound.
    let take = |tables: &mut Tables, step: &Step| unsafe { library.number_sound(tables, step) };
    meter.play(plan, || opened_tables(library, &plan.opening), take)
}

/// The fast step, which checks no tables either.
pub fn fast<M: Meter>(meter: &M, library: StoreLibrary, plan: &Plan) -> M::Told {
    // As above.
    let take = |tables: &mut Tables, step: &Step| unsafe { calls::number(tables, step) };
    meter.play(plan, || opened_tables(library, &plan.opening), take)
}

/// The proved public step.
pub fn checked<M: Meter>(meter: &M, library: StoreLibrary, plan: &Plan) -> M::Told {
    let take = |tables: &mut Tables, step: &Step| library.number(tables, step);
    meter.play(plan, || opened_tables(library, &plan.opening), take)
}

/// The fast check, then the fast step.
pub fn fast_checked<M: Meter>(meter: &M, library: StoreLibrary, plan: &Plan) -> M::Told {
    meter.play(plan, || opened_tables(library, &plan.opening), calls::number_checked)
}

/// The mean nanoseconds of each step over several rounds.
struct Mean<'a> {
    clock: &'a Clock,
    rounds: usize,
}

impl Meter for Mean<'_> {
    type Told = Vec<f64>;

    fn play<S, R>(&self, plan: &Plan, fresh: impl Fn() -> S, take: impl Fn(&mut S, &Step) -> R) -> Vec<f64> {
        let mut ticks = vec![Vec::with_capacity(self.rounds); plan.steps.len()];
        for _ in 0..self.rounds {
            let mut state = fresh();
            for (step, ticks) in plan.steps.iter().zip(&mut ticks) {
                let (elapsed, answer) = elapsed_ticks(|| take(&mut state, step));
                ticks.push(elapsed);
                drop(answer);
            }
        }
        ticks.into_iter().map(|ticks| self.clock.nanoseconds(undisturbed_mean(ticks))).collect()
    }
}

pub fn opened_tables(library: StoreLibrary, opening: &Step) -> Tables {
    let Step::Open { servers, clients, .. } = opening else {
        unreachable!("openings open");
    };
    let mut tables = Tables::filled(*servers as usize, *clients as usize, 0);
    assert_eq!(library.number(&mut tables, opening), 0);
    tables
}
