//! The program that records, on good and bad schedules. It needs the proved libraries: where they are not linked it says so.

use ffi::{StoreLibrary, WireLibrary};
use frames::recording::{Recording, MOST_FRAMES};
use recordings::{by_model, file, played};
use std::io::Write;
use std::process::{Command, Output, Stdio};

/// Runs the program, which is to end with this status: what it printed, and what it said.
fn run(words: &[&str], schedule: &[u8], status: i32) -> (Vec<u8>, String) {
    let mut command = Command::new(env!("CARGO_BIN_EXE_record"));
    let piped = command.args(words).stdin(Stdio::piped()).stdout(Stdio::piped()).stderr(Stdio::piped());
    let mut child = piped.spawn().expect("it starts");
    // A program that refuses its words reads nothing.
    let _ = child.stdin.take().expect("piped").write_all(schedule);
    let Output { status: ended, stdout, stderr } = child.wait_with_output().expect("it ends");
    let said = String::from_utf8(stderr).expect("text");
    assert_eq!(ended.code(), Some(status), "{said}");
    (stdout, said)
}

fn linked() -> bool {
    StoreLibrary::linked().is_some() && WireLibrary::linked().is_some()
}

/// What the model records.
fn modelled(schedule: &[u8]) -> Recording {
    Recording::of(played(schedule, &mut *by_model()).into_iter().filter_map(|line| line.frame))
}

const WRITE: &[u8] = b"O 2 1 1 1200\nW 0 1 7 1800\n> 0 0\n< 0 0\n> 0 16\n< 0 16\n";

#[test]
fn without_the_libraries() {
    if !linked() {
        assert!(run(&[], WRITE, 1).1.contains("is not linked"));
    }
}

#[test]
fn a_schedule() {
    if linked() {
        assert_eq!(run(&[], WRITE, 0), (file::written(&modelled(WRITE)), String::new()));
        assert_eq!(run(&[], b"", 0), (vec![0; 4], String::new()));
    }
}

#[test]
fn in_hexadecimal() {
    if linked() {
        let lines = "3 > 0 0  10 00 08 00 03 80 00 03 84 00\n4 < 0 0  20 00\n5 > 0 16  30 80 08 00 00 80\n6 < 0 16  40 80 08\n";
        assert_eq!(run(&["--hex"], WRITE, 0), (lines.into(), String::new()));
    }
}

/// Lines that deliver nothing are named, and what is around them is recorded.
#[test]
fn refused_and_unreadable_lines() {
    if linked() {
        let schedule = [b"> 0 0\nhallo\n", WRITE, b"< 0 16\n\xff\n"].concat();
        let said = ["1 is refused (no 2)", "2 is not readable (no 13)", "9 is refused (no 9)", "10 is not readable (no 13)"];
        let said: String = said.iter().map(|line| format!("record: line {line}: it delivers nothing\n")).collect();
        assert_eq!(run(&[], &schedule, 0), (file::written(&modelled(WRITE)), said));
    }
}

#[test]
fn many_unreadable_lines() {
    if linked() {
        let (printed, said) = run(&[], &b"x\n".repeat(1000), 0);
        assert_eq!((printed, said.lines().count()), (vec![0; 4], 11));
        assert!(said.ends_with("record: and 990 more lines are refused or not readable\n"), "{said}");
    }
}

/// Four frames a WRITE: 1,024 WRITEs in five presses just fit, and one frame more does not.
#[test]
fn a_schedule_of_too_many_frames() {
    if linked() {
        let (opening, write) = WRITE.split_at(13);
        let press = |writes: usize| [opening, &write.repeat(writes)].concat();
        let full = [press(255), press(255), press(255), press(255), press(4)].concat();
        let recording = modelled(&full);
        assert_eq!(recording.lengths.len(), MOST_FRAMES);
        assert_eq!(run(&[], &full, 0), (file::written(&recording), String::new()));
        let more = [&full[..], b"W 0 1 7 1800\n> 0 0\n"].concat();
        let (printed, said) = run(&[], &more, 1);
        assert_eq!((printed, said.contains("delivers 4097 frames")), (vec![], true), "{said}");
        assert_eq!(run(&["--hex"], &more, 0).0.split(|&byte| byte == 10).count(), MOST_FRAMES + 2);
    }
}

#[test]
fn bad_words() {
    for words in [&["--help"][..], &["--hex", "--hex"], &["a"]] {
        let (printed, said) = run(words, WRITE, 2);
        assert_eq!((printed, said.starts_with("usage: ")), (vec![], true), "{words:?}");
    }
}
