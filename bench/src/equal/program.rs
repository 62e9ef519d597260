//! The program's output, byte by byte: random schedules, and texts whose lines and ends are odd.

use bench::fast::play::replay;
use schedules::schedule;
use std::io::Write;
use std::process::{Command, Stdio};

const SCHEDULES: u64 = 40;

pub fn compare(program: &[String]) {
    let [name, arguments @ ..] = program else {
        panic!("bench equal PROGRAM [ARGUMENT...]");
    };
    let texts = (0..SCHEDULES).map(|seed| schedule(seed, 12)).chain(odd_texts());
    let mut bytes = [0, 0];
    for text in texts {
        let (expected, found) = (output(name, arguments, &text), played(&text));
        if let Some(place) = (0..expected.len().max(found.len())).find(|&place| expected.get(place) != found.get(place)) {
            let around = |text: &[u8]| {
                String::from_utf8_lossy(&text[place.saturating_sub(99).min(text.len())..]).chars().take(200).collect::<String>()
            };
            panic!("the outputs differ at byte {place}: {:?} and not {:?}", around(&found), around(&expected));
        }
        bytes = [bytes[0] + text.len(), bytes[1] + found.len()];
    }
    println!("the program, equal: {} bytes of schedules, {} printed", bytes[0], bytes[1]);
}

/// No line, no byte 10 at the end, lines that are too long by one byte and by many, steps before an opening, badges at their limit, and
/// every number of numbers that a line of 200 bytes can have.
fn odd_texts() -> Vec<Vec<u8>> {
    let opened = b"O 2 2 2 1200 30\n".to_vec();
    let behind = |lines: &[u8]| [&opened[..], lines].concat();
    let many = |numbers: usize| format!("W{}\n", " 1".repeat(numbers)).into_bytes();
    let lines: Vec<u8> = (0..=101).flat_map(many).collect();
    vec![
        Vec::new(),
        b"\n".to_vec(),
        b"> 0 0\nW 0 1 65535 1\nW 0 1 65536 1\nW 0 1\nR 0 1\n! 0 0\n+ 0 0\nO 1 2 2 1 1\nO 2 2 2 1 1\n< 0 0".to_vec(),
        behind(b"W 0 3 7 1800 45"),
        behind(b"W 0 3 65535 1800 45\nW 1 3 65536 1 1\n> 0 0\n! 0 1\n! 0 1\n+ 0 0\n+ 0 1\n> 0 1\n< 0 0\n< 0 1\n"),
        behind(&lines),
        b"7".repeat(200_000),
        [&b"R 0 1".repeat(40)[..], b"\n", &b"R 0 1".repeat(40), b"1\n"].concat(),
        b" \n".repeat(70_000),
    ]
}

fn played(text: &[u8]) -> Vec<u8> {
    let mut printed = Vec::new();
    replay(text, &mut printed).expect("a vector takes all");
    printed
}

fn output(name: &str, arguments: &[String], text: &[u8]) -> Vec<u8> {
    let mut command = Command::new(name);
    let mut child = command.args(arguments).stdin(Stdio::piped()).stdout(Stdio::piped()).spawn().expect("the program runs");
    let mut input = child.stdin.take().expect("piped");
    let text = text.to_vec();
    // The program prints while it reads.
    let writer = std::thread::spawn(move || input.write_all(&text));
    let output = child.wait_with_output().expect("the program ends");
    writer.join().expect("no panic").expect("the program reads all");
    output.stdout
}
