//! Runs in two orders, for their recordings.

use model::Step;
use schedules::{Generator, Random};

/// Which neighbouring requests change places.
#[derive(Clone, Copy, PartialEq)]
pub enum Swapped {
    /// Those that are delivered at different targets.
    AtDifferentTargets,
    /// Those of different clients at one target.
    AtOneTarget,
}

/// A run, the same run with some neighbouring deliveries of requests in the other order, and how many pairs have changed places.
pub struct TwoOrders {
    pub one: Vec<Step>,
    pub other: Vec<Step>,
    pub swaps: usize,
}

/// A random run. Only accepted deliveries change places.
pub fn two_orders(seed: u64, swapped: Swapped, random: &mut Random) -> TwoOrders {
    let mut generator = Generator::new(seed);
    let mut step = generator.opening();
    let (mut one, mut accepted) = (Vec::new(), Vec::new());
    for _ in 0..random.within(20, 200) {
        accepted.push(generator.take(&step).is_ok());
        one.push(step);
        step = generator.likely_step();
    }
    let (mut other, mut swaps, mut place) = (one.clone(), 0, 0);
    while place + 1 < one.len() {
        let good = accepted[place] && accepted[place + 1] && neighbours(&one[place], &one[place + 1]) == Some(swapped);
        if good && random.chance(2, 3) {
            other.swap(place, place + 1);
            (swaps, place) = (swaps + 1, place + 2);
        } else {
            place += 1;
        }
    }
    TwoOrders { one, other, swaps }
}

/// How two deliveries of requests stand to each other. At one target they are of different clients, for a link holds one request.
fn neighbours(one: &Step, other: &Step) -> Option<Swapped> {
    match (one, other) {
        (Step::DeliverRequest { target, .. }, Step::DeliverRequest { target: next, .. }) if target == next => {
            Some(Swapped::AtOneTarget)
        }
        (Step::DeliverRequest { .. }, Step::DeliverRequest { .. }) => Some(Swapped::AtDifferentTargets),
        _ => None,
    }
}
