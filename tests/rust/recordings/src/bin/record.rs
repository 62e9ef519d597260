//! A schedule on standard input, the recording of its frames on standard output: by the proved steps and the proved writer of frames.
//! With `--hex` a line of text for each frame instead: the number of its line, the line, and its bytes in hexadecimal.
//! `tools/record` builds it and runs it. Lines that are refused deliver nothing; they are named on standard error.

use ffi::{StoreLibrary, WireLibrary};
use frames::recording::{Recording, MOST_FRAMES};
use model::Refusal;
use recordings::{by_proved, file, played, Played};
use std::io::{self, Read, Write};
use std::process::ExitCode;

/// So many lines are named, and the others counted.
const MOST_NAMED: usize = 10;

fn main() -> ExitCode {
    let given: Vec<String> = std::env::args().skip(1).collect();
    let hex = match given.iter().map(String::as_str).collect::<Vec<_>>()[..] {
        [] => false,
        ["--hex"] => true,
        _ => {
            eprintln!("usage: record [--hex] < SCHEDULE");
            return ExitCode::from(2);
        }
    };
    match recorded(hex) {
        Ok(()) => ExitCode::SUCCESS,
        Err(fault) => {
            eprintln!("record: {fault}");
            ExitCode::FAILURE
        }
    }
}

fn recorded(hex: bool) -> Result<(), String> {
    let store = StoreLibrary::linked().ok_or("libstore_exports.a is not linked: run tests/rust/build-store")?;
    let wire = WireLibrary::linked().ok_or("libwire_exports.a is not linked: run tests/rust/build-store")?;
    let mut text = Vec::new();
    io::stdin().read_to_end(&mut text).map_err(|fault| format!("the schedule cannot be read: {fault}"))?;
    let played = played(&text, &mut *by_proved(store, wire));
    name_refused(&played);
    let output = if hex { in_hexadecimal(&played) } else { in_a_file(&played)? };
    io::stdout().write_all(&output).map_err(|fault| format!("the recording cannot be written: {fault}"))
}

/// Lines that are refused, or not readable, on standard error.
fn name_refused(played: &[Played]) {
    let refused: Vec<(usize, Refusal)> =
        played.iter().filter_map(|line| Some((line.number, line.outcome.as_ref().err()?.to_owned()))).collect();
    for (number, refusal) in refused.iter().take(MOST_NAMED) {
        match refusal {
            Refusal::Unreadable => eprintln!("record: line {number} is not readable ({refusal}): it delivers nothing"),
            _ => eprintln!("record: line {number} is refused ({refusal}): it delivers nothing"),
        }
    }
    if refused.len() > MOST_NAMED {
        eprintln!("record: and {} more lines are refused or not readable", refused.len() - MOST_NAMED);
    }
}

/// The file of the recording. A recorder has room for so many frames.
fn in_a_file(played: &[Played]) -> Result<Vec<u8>, String> {
    let recording = Recording::of(played.iter().filter_map(|line| line.frame.as_deref()));
    match recording.lengths.len() {
        0..=MOST_FRAMES => Ok(file::written(&recording)),
        more => {
            Err(format!("the schedule delivers {more} frames, and a recording has at most {MOST_FRAMES}: nothing is written"))
        }
    }
}

/// A line for each frame: the number of its line, the line, and its bytes.
fn in_hexadecimal(played: &[Played]) -> Vec<u8> {
    let mut text = String::new();
    for Played { number, line, frame, .. } in played {
        if let Some(frame) = frame {
            let bytes: Vec<String> = frame.iter().map(|byte| format!("{byte:02x}")).collect();
            text.push_str(&format!("{number} {}  {}\n", String::from_utf8_lossy(line), bytes.join(" ")));
        }
    }
    text.into_bytes()
}
