//! Pairs of recordings through the proved comparison, made of frames and recorded of runs: its answers are the model's, and the other
//! way round the same; and what is recorded of a run by the proved steps is what the model records.

use crate::arguments::Arguments;
use crate::pairs::{full_pair, longest_pair, names, some_pair, Answer, Known, Pair};
use crate::runs::{two_orders, Swapped};
use crate::tally::Tally;
use crate::Report;
use ffi::{RecordingLibrary, StoreLibrary, WireLibrary};
use frames::message::HEAD;
use frames::recording::{self, Compared, Recording};
use model::Step;
use recordings::{by_model, by_proved, Recorder};
use schedules::Random;

/// A pair of full recordings comes with every so many short ones, and two runs with every few.
const SHORT_FOR_A_FULL: usize = 250;
const SHORT_FOR_A_RUN: usize = 20;

/// In a run of so many cases each kind of pair is to occur, and each of these.
const MANY: usize = 10_000;
const DUE: [&str; 5] = ["agree", "differ", "differ behind place 255", "differ at the coordinator", "no 16"];
const DUE_RUNS: [&str; 3] = [OTHER_TARGETS, ONE_TARGET, "pairs of swapped requests"];
const OTHER_TARGETS: &str = "runs with requests swapped at different targets";
const ONE_TARGET: &str = "runs with requests swapped at one target";

/// A comparison, and what makes a press that records.
pub type Comparing<'a> = &'a dyn Fn(&Recording, &Recording) -> Answer;
pub type Opening<'a> = &'a dyn Fn() -> Box<dyn Recorder>;

pub fn compare(arguments: &Arguments) -> Report {
    let missing = |library: &str| format!("lib{library}.a is not linked: run tests/rust/build-store");
    let library = RecordingLibrary::linked().ok_or_else(|| missing("recording_exports"))?;
    let store = StoreLibrary::linked().ok_or_else(|| missing("store_exports"))?;
    let wire = WireLibrary::linked().ok_or_else(|| missing("wire_exports"))?;
    compare_by(arguments, &|one, other| library.compare(one, other), &|| by_proved(store, wire))
}

/// The same with any comparison and any recorder in the place of the proved ones.
pub fn compare_by(arguments: &Arguments, comparing: Comparing, opening: Opening) -> Report {
    let random = Random::new(arguments.seed);
    let mut comparison =
        Comparison { comparing, opening, random, pairs: Tally::default(), runs: Tally::default(), answers: Tally::default() };
    for case in 0..arguments.cases {
        comparison.case(case, arguments.seed_of(case)).map_err(|difference| format!("case {case}: {difference}"))?;
    }
    let Comparison { pairs, runs, answers, .. } = comparison;
    if arguments.cases >= MANY {
        answers.require(&DUE)?;
        runs.require(&DUE_RUNS)?;
        pairs.require(&names().collect::<Vec<_>>())?;
    }
    Ok(format!("{} cases; {runs}; answers: {answers}; pairs: {pairs}", arguments.cases))
}

struct Comparison<'a> {
    comparing: Comparing<'a>,
    opening: Opening<'a>,
    random: Random,
    pairs: Tally,
    runs: Tally,
    answers: Tally,
}

impl Comparison<'_> {
    /// A short pair, and now and then a full one, or two runs.
    fn case(&mut self, case: usize, seed: u64) -> Result<(), String> {
        let pair = some_pair(&mut self.random);
        self.pair(&pair)?;
        if case.is_multiple_of(SHORT_FOR_A_RUN) {
            self.two_runs(seed, Swapped::AtDifferentTargets)?;
            self.two_runs(seed, Swapped::AtOneTarget)?;
        }
        if case.is_multiple_of(SHORT_FOR_A_FULL) {
            let pair = full_pair(case / SHORT_FOR_A_FULL, &mut self.random);
            self.pair(&pair)?;
        }
        if case == SHORT_FOR_A_FULL {
            let pair = longest_pair(&mut self.random);
            self.pair(&pair)?;
        }
        Ok(())
    }

    /// The answer both ways round, by the model, by what is known, and by the other comparison.
    fn pair(&mut self, Pair { name, one, other, known }: &Pair) -> Result<(), String> {
        self.pairs.count(name);
        let expected = recording::compare(one, other);
        let as_known = match known {
            Known::Exactly(answer) => expected == *answer,
            Known::NotAgree => expected != Ok(Compared::Agree),
            Known::Nothing => true,
        };
        let said = || format!("{name}: {} and {}", shown(one), shown(other));
        if !as_known {
            return Err(format!("the model answers {expected:?}, and {known:?} is known; {}", said()));
        }
        for (one, other, way) in [(one, other, ""), (other, one, ", the recordings swapped")] {
            let found = (self.comparing)(one, other);
            if found != expected {
                return Err(format!("{found:?}, the model {expected:?}{way}; {}", said()));
            }
        }
        self.count(expected);
        Ok(())
    }

    fn count(&mut self, answer: Answer) {
        match answer {
            Ok(Compared::Agree) => self.answers.count("agree"),
            Ok(Compared::Differ { target, place, .. }) => {
                self.answers.count("differ");
                if place > 255 {
                    self.answers.count("differ behind place 255");
                }
                if u32::from(target) == HEAD {
                    self.answers.count("differ at the coordinator");
                }
            }
            Err(refusal) => self.answers.count(&refusal.to_string()),
        }
    }

    /// Two runs that differ by neighbouring requests: those at different targets give recordings that agree.
    fn two_runs(&mut self, seed: u64, swapped: Swapped) -> Result<(), String> {
        let runs = two_orders(seed, swapped, &mut self.random);
        let (one, other) = (self.recorded(&runs.one)?, self.recorded(&runs.other)?);
        let (name, known) = match swapped {
            Swapped::AtDifferentTargets => (OTHER_TARGETS, Known::Exactly(Ok(Compared::Agree))),
            Swapped::AtOneTarget => (ONE_TARGET, Known::Nothing),
        };
        if runs.swaps > 0 {
            self.runs.count(name);
        }
        (0..runs.swaps).for_each(|_| self.runs.count("pairs of swapped requests"));
        self.pair(&Pair { name, one, other, known }).map_err(|difference| format!("run {seed}: {difference}"))
    }

    /// What is recorded of a run: both sides answer alike and record the same frames.
    fn recorded(&mut self, steps: &[Step]) -> Result<Recording, String> {
        let (mut model, mut proved) = (by_model(), (self.opening)());
        let mut recording = Recording::default();
        for (place, step) in steps.iter().enumerate() {
            let expected = model.take_recorded(step);
            let found = proved.take_recorded(step);
            if found != expected {
                return Err(format!("step {place}, {step:?}, gives {found:x?}, the model {expected:x?}"));
            }
            if let (_, Some(frame)) = expected {
                self.runs.count("frames recorded");
                recording.push(&frame);
            }
        }
        Ok(recording)
    }
}

/// A recording for a report, a long one by its size alone.
fn shown(Recording { lengths, bytes }: &Recording) -> String {
    match bytes.len() {
        0..=200 => format!("lengths {lengths:?} with bytes {bytes:02x?}"),
        more => format!("{} lengths with {more} bytes", lengths.len()),
    }
}
