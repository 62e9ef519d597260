//! Random schedules through a program: its output equal to the model's, byte by byte, and demand 3 on it.

use crate::arguments::Arguments;
use crate::programs::{first_difference, run};
use crate::reached::Reached;
use crate::Report;
use demand3::Summary;

/// Openings in one input, in turn: mostly one, whose register is then printed, and now and then many.
const OPENINGS: [usize; 8] = [1, 1, 1, 5, 1, 1, 1, 29];

/// In a run of so many openings all is to be reached that schedules are for.
const MANY: usize = 1000;

/// Plays `cases` openings.
pub fn compare(arguments: &Arguments) -> Report {
    compare_by(arguments, &mut |schedule| run(&arguments.program, schedule))
}

/// What a program printed, or why it did not.
pub type Output = Result<Vec<u8>, String>;

/// The same by any program, which gives its output for a schedule.
pub fn compare_by(arguments: &Arguments, play: &mut dyn FnMut(&[u8]) -> Output) -> Report {
    let mut reached = Reached::default();
    let (mut inputs, mut opened) = (0, 0);
    while opened < arguments.cases {
        let openings = OPENINGS[inputs % OPENINGS.len()];
        let seed = arguments.seed_of(inputs);
        let schedule = schedules::schedule(seed, openings);
        let output = play(&schedule)?;
        let found = judge(&schedule, &output).map_err(|difference| match &arguments.program[..] {
            [] => format!("input {seed}: {difference}"),
            _ => keep(&schedule, &output, seed, &difference),
        })?;
        reached.add(&schedule, &found);
        inputs += 1;
        opened += openings;
    }
    if arguments.cases >= MANY {
        reached.require_all()?;
    }
    Ok(format!("{opened} cases in {inputs} inputs, {reached}"))
}

/// Demand 3 on the output, and the output against the model's.
fn judge(schedule: &[u8], output: &[u8]) -> Result<Summary, String> {
    let expected = model::replay(schedule);
    if output != expected {
        return Err(first_difference(&expected, output));
    }
    demand3::check(schedule, output).map_err(|violation| format!("demand 3, {violation}"))
}

/// Keeps both texts of a difference for a closer look.
fn keep(schedule: &[u8], output: &[u8], seed: u64, difference: &str) -> String {
    let folder = std::env::temp_dir();
    let (input, printed) = (folder.join("compare-schedule"), folder.join("compare-output"));
    let kept = std::fs::write(&input, schedule).and_then(|_| std::fs::write(&printed, output));
    let place = match kept {
        Ok(()) => format!("see {} and {}", input.display(), printed.display()),
        Err(error) => format!("the texts could not be kept: {error}"),
    };
    format!("input {seed}: {difference}; {place}")
}
