//! The yard program by the model: a schedule on standard input, its answers and the register on standard output.

use std::io::{self, Read, Write};

fn main() -> io::Result<()> {
    let mut text = Vec::new();
    io::stdin().read_to_end(&mut text)?;
    io::stdout().write_all(&model::replay(&text))
}
