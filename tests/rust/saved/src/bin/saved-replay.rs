//! `saved-replay [--model] [--from FILE] [--save FILE]`: plays the schedule on standard input, on the tables of a file where one is named,
//! and saves the tables that it leaves. The tables are checked by `sound` before anything is played and before anything is saved.
//!
//! The steps, the check and the register are those of the proved crates, by their exports; lines are read and answers printed by the plain
//! Rust of tests/rust, of which nothing is proved. With --model all is by that. The yard program of the proved crates takes no tables.
//!
//! Exit status: 0 all was played and saved; 1 an input or an output failed; 2 a wrong command line, tables that are refused, no library.

use saved::{lengthened, play, read, written, By, Refused};
use std::io::{self, BufWriter, Read};
use std::process::ExitCode;
use words::Tables;

enum Fault {
    Usage,
    Said(u8, String),
}

impl From<io::Error> for Fault {
    fn from(error: io::Error) -> Fault {
        Fault::Said(1, error.to_string())
    }
}

/// Refused by 2, with the name of what is refused.
fn refused(name: &str) -> impl Fn(Refused) -> Fault + '_ {
    move |Refused(why)| Fault::Said(2, format!("{name}: refused by 2: {why}"))
}

fn run() -> Result<(), Fault> {
    let (mut model, mut from, mut save) = (false, None, None);
    let mut words = std::env::args().skip(1);
    while let Some(word) = words.next() {
        match word.as_str() {
            "--model" => model = true,
            "--from" => from = Some(words.next().ok_or(Fault::Usage)?),
            "--save" => save = Some(words.next().ok_or(Fault::Usage)?),
            _ => return Err(Fault::Usage),
        }
    }
    let no_library =
        || Fault::Said(2, "the libraries of store_exports and wire_exports are not linked: tests/rust/build-store".into());
    let by = if model { By::Model } else { By::proved().ok_or_else(no_library)? };
    let mut tables = Tables::filled(16, 16, 0);
    if let Some(name) = from {
        let text = std::fs::read(&name).map_err(|error| Fault::Said(2, format!("{name}: {error}")))?;
        let found = read(&text).map_err(refused(&name))?;
        by.sound(&found).map_err(refused(&name))?;
        tables = lengthened(found);
    }
    let mut schedule = Vec::new();
    io::stdin().read_to_end(&mut schedule)?;
    play(by, &mut tables, &schedule, &mut BufWriter::new(io::stdout()))?;
    if let Some(name) = save {
        by.sound(&tables).map_err(|_| Fault::Said(2, format!("{name}: refused by 2: no press is open, so nothing is saved")))?;
        std::fs::write(&name, written(&tables)).map_err(|error| Fault::Said(1, format!("{name}: {error}")))?;
    }
    Ok(())
}

fn main() -> ExitCode {
    match run() {
        Ok(()) => ExitCode::SUCCESS,
        Err(Fault::Usage) => {
            eprintln!("usage: saved-replay [--model] [--from FILE] [--save FILE]");
            ExitCode::from(2)
        }
        Err(Fault::Said(status, why)) => {
            eprintln!("saved-replay: {why}");
            ExitCode::from(status)
        }
    }
}
