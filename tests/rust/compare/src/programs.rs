//! Running a program on an input, and where its output differs.

use std::io::{Read, Write};
use std::process::{Command, Stdio};

/// The first line in which two outputs differ.
pub fn first_difference(expected: &[u8], output: &[u8]) -> String {
    let text = |line: Option<&[u8]>| line.map_or("nothing".into(), |line| String::from_utf8_lossy(line).into_owned());
    let (mut wanted, mut found) = (expected.split(|&byte| byte == 10), output.split(|&byte| byte == 10));
    let mut number = 1;
    loop {
        match (wanted.next(), found.next()) {
            (None, None) => return "the outputs are equal".into(),
            (one, other) if one != other => {
                return format!("output line {number} is '{}' and the model's is '{}'", text(other), text(one));
            }
            _ => number += 1,
        }
    }
}

/// Runs the program on an input; the input is written beside the reading, since a pipe holds only so much.
pub fn run(program: &[String], input: &[u8]) -> Result<Vec<u8>, String> {
    let failed = |error: std::io::Error| format!("{}: {error}", program[0]);
    let mut child =
        Command::new(&program[0]).args(&program[1..]).stdin(Stdio::piped()).stdout(Stdio::piped()).spawn().map_err(failed)?;
    let mut stdin = child.stdin.take().expect("piped");
    let mut stdout = child.stdout.take().expect("piped");
    let mut output = Vec::new();
    std::thread::scope(|scope| {
        // A program that stops reading shows in its output.
        scope.spawn(move || stdin.write_all(input));
        stdout.read_to_end(&mut output)
    })
    .map_err(failed)?;
    let status = child.wait().map_err(failed)?;
    if status.success() {
        Ok(output)
    } else {
        Err(format!("{}: {status}", program[0]))
    }
}
