//! `model-frames SCHEDULE OUTPUT`: the frames that a schedule puts on its links, by the model, a line `LINE PANEL TARGET BYTES` each:
//! the line of the schedule that put it there, its link, its bytes in hexadecimal. Exit status 1 where the model prints another output
//! for that schedule, since the frames would be of another run; 2 where a file cannot be read.

use model::line::lines;
use model::{Link, Player, Store};
use std::io::Write;
use std::process::ExitCode;

fn main() -> ExitCode {
    let files: Vec<String> = std::env::args().skip(1).collect();
    let [schedule, output] = &files[..] else {
        return failed("usage: model-frames SCHEDULE OUTPUT", 2);
    };
    let read = |name: &String| std::fs::read(name).map_err(|error| format!("{name}: {error}"));
    let (schedule_text, output_text) = match (read(schedule), read(output)) {
        (Ok(schedule), Ok(output)) => (schedule, output),
        (Err(fault), _) | (_, Err(fault)) => return failed(&fault, 2),
    };
    if model::replay(&schedule_text) != output_text {
        return failed(&format!("{output} is not what the model prints for {schedule}"), 1);
    }
    match std::io::stdout().write_all(frames_of(&schedule_text).as_bytes()) {
        Ok(()) => ExitCode::SUCCESS,
        Err(fault) => failed(&format!("the frames cannot be written: {fault}"), 2),
    }
}

fn failed(why: &str, status: u8) -> ExitCode {
    eprintln!("{why}");
    ExitCode::from(status)
}

fn frames_of(schedule: &[u8]) -> String {
    let mut player = Player::default();
    let mut printed = String::new();
    for (number, line) in (1..).zip(lines(schedule)) {
        let before = links_of(&player.store);
        if player.take_line(line).is_err() {
            continue;
        }
        for (place, link) in links_of(&player.store).iter().enumerate() {
            // A link that holds the same afterwards got no frame: a delivery takes what was there, and a begin finds nothing there.
            if before.get(place) != Some(link) {
                printed.push_str(&frame_line(number, place / 17, place % 17, link));
            }
        }
    }
    printed
}

/// The links of every client, 17 each.
fn links_of(store: &Option<Store>) -> Vec<Link> {
    store.iter().flat_map(|store| &store.clients).flat_map(|client| client.links.clone()).collect()
}

fn frame_line(number: usize, client: usize, target: usize, link: &Link) -> String {
    let Some(message) = frames::link::message_on(link, client as u8, target as u8) else {
        return String::new();
    };
    let bytes = frames::write(&message).expect("what a link holds can be written");
    let bytes: Vec<String> = bytes.iter().map(|byte| format!("{byte:02X}")).collect();
    format!("{number} {client} {target} {}\n", bytes.join(" "))
}
