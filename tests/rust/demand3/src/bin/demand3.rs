//! `demand3 SCHEDULE OUTPUT`: checks demand 3 on two files. Exit status 0 where it holds, 1 where it is broken, 2 where nothing was
//! checked or said: a file that cannot be read, an output that is none of this schedule, no place to write to.

use std::io::Write;
use std::process::ExitCode;

fn main() -> ExitCode {
    let files: Vec<String> = std::env::args().skip(1).collect();
    let [schedule, output] = &files[..] else {
        return unchecked("usage: demand3 SCHEDULE OUTPUT");
    };
    let read = |name: &String| std::fs::read(name).map_err(|error| format!("{name}: {error}"));
    let (schedule_text, output_text) = match (read(schedule), read(output)) {
        (Ok(schedule), Ok(output)) => (schedule, output),
        (Err(fault), _) | (_, Err(fault)) => return unchecked(&fault),
    };
    match demand3::check(&schedule_text, &output_text) {
        Ok(seen) => {
            let lines = format!("lines: {}, accepted {}, refused {}", seen.lines, seen.accepted, seen.refused);
            let row = format!("in the row: WRITEs {}, READs {}", seen.tagged_writes, seen.finished_reads);
            let losses = match (seen.lost_requests, seen.lost_replies) {
                (0, 0) => String::new(),
                (requests, replies) => format!("\nlost: requests {requests}, replies {replies}; sent again: {}", seen.sent_again),
            };
            let text = format!("demand 3 holds of this run.\n{lines}; openings: {}\n{row}{losses}", seen.openings);
            verdict(&text, ExitCode::SUCCESS)
        }
        Err(violation) if violation.fits => verdict(&format!("demand 3 is BROKEN: {violation}"), ExitCode::FAILURE),
        Err(violation) => unchecked(&format!("{output} is no output of {schedule}: {violation}")),
    }
}

fn verdict(text: &str, status: ExitCode) -> ExitCode {
    match writeln!(std::io::stdout(), "{text}") {
        Ok(()) => status,
        Err(error) => unchecked(&format!("the verdict cannot be written: {error}")),
    }
}

fn unchecked(why: &str) -> ExitCode {
    eprintln!("{why}");
    ExitCode::from(2)
}
