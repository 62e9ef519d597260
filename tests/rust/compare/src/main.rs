//! Compares the proved crates with the model on many random inputs. Exit status 1 at the first difference, and where a long
//! run did not reach all that it is for.
//!
//!     compare schedules PROGRAM [ARGUMENT...] [--cases N] [--seed S]
//!     compare tables [--cases N] [--seed S]
//!     compare frames [--cases N] [--seed S]
//!     compare wire [--cases N] [--seed S]
//!     compare load [--cases N] [--seed S]
//!     compare neighbours [--cases N] [--seed S]
//!     compare recordings [--cases N] [--seed S]
//!     compare load-text PROGRAM [ARGUMENT...] [--cases N] [--seed S]

mod arguments;
mod damage;
mod frames_run;
mod load_run;
mod load_text_run;
mod losses;
mod messages;
mod neighbours_run;
mod pairs;
mod programs;
mod reached;
mod recordings_run;
mod runs;
mod schedules_run;
mod stores;
mod tables_run;
mod tally;
mod wire_run;
#[cfg(test)]
mod wrong_comparisons;
#[cfg(test)]
mod wrong_neighbours;
#[cfg(test)]
mod wrong_registers;
#[cfg(test)]
mod wrong_retired;
#[cfg(test)]
mod wrong_stores;

use arguments::Arguments;
use std::process::ExitCode;

/// What a comparison found: a line of counts, or the first difference or what was not reached.
pub type Report = Result<String, String>;

fn main() -> ExitCode {
    let given: Vec<String> = std::env::args().skip(1).collect();
    let Some(arguments) = Arguments::parse(&given) else {
        eprintln!(
            "usage: compare schedules PROGRAM [ARGUMENT...] | load-text PROGRAM [ARGUMENT...] | tables | frames | wire | load |"
        );
        eprintln!("       neighbours | recordings, each with [--cases N] [--seed S]");
        return ExitCode::from(2);
    };
    let started = std::time::Instant::now();
    let report = match arguments.subject.as_str() {
        "schedules" => schedules_run::compare(&arguments),
        "tables" => tables_run::compare(&arguments),
        "frames" => frames_run::compare(&arguments),
        "wire" => wire_run::compare(&arguments),
        "load" => load_run::compare(&arguments),
        "neighbours" => neighbours_run::compare(&arguments),
        "recordings" => recordings_run::compare(&arguments),
        "load-text" => load_text_run::compare(&arguments),
        other => Err(format!("no such comparison: {other}")),
    };
    let seconds = started.elapsed().as_secs_f32();
    match report {
        Ok(counts) => {
            println!("{}: {counts}, no difference, {seconds:.1} s", arguments.subject);
            ExitCode::SUCCESS
        }
        Err(failure) => {
            println!("{}: FAILED: {failure}", arguments.subject);
            ExitCode::FAILURE
        }
    }
}
