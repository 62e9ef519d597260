//! The program that makes loads, by the model: `seed length method k p` on standard input, the schedule on standard output.

use std::io::{self, Read, Write};

fn main() -> io::Result<()> {
    let mut text = Vec::new();
    io::stdin().read_to_end(&mut text)?;
    io::stdout().write_all(&schedules::load_text(&text))
}
