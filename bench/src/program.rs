//! The program that plays a schedule, beside the fast one: schedules of 100,000 lines, from a file to nowhere.

use crate::goals;
use crate::plans::in_turn;
use crate::table::{print, ratio, thousands};
use ::schedules::{line_of, schedule};
use std::fs::{self, File};
use std::path::{Path, PathBuf};
use std::process::{Command, Stdio};
use std::time::Instant;

pub const LINES: usize = 100_000;
const RUNS: usize = 60;
const HEADS: [&str; 5] = ["schedule of 100,000 lines", "bytes", "proved, lines a second", "fast, lines a second", "ratio"];

/// The schedules by their names; the first has no line.
pub fn schedules() -> [(&'static str, Vec<u8>); 6] {
    [
        ("no line at all", Vec::new()),
        ("random: begins, deliveries, refused and unreadable lines, many openings", random()),
        ("accepted steps, method B, 4 servers, 4 clients, opened anew every 60 WRITEs and READs", accepted(2, 4, 4, 60)),
        ("the same under method C", accepted(3, 4, 4, 60)),
        ("the same under method C with 16 servers, 16 clients and 255 each", accepted(3, 16, 16, 255)),
        ("lines that are no step", b"? 1 2\n".repeat(LINES)),
    ]
}

pub fn report(proved: &str, fast: &str) {
    let mut rows = Vec::new();
    for (name, text) in schedules().into_iter().skip(1) {
        let file = std::env::temp_dir().join(format!("setpoint-bench-{}.txt", std::process::id()));
        fs::write(&file, &text).expect("the temporary folder takes a file");
        rows.push(one_schedule(name, &file, text.len(), proved, fast));
        fs::remove_file(&file).expect("it was written");
    }
    print("The program", &HEADS, &rows);
}

fn one_schedule(name: &str, file: &Path, bytes: usize, proved: &str, fast: &str) -> Vec<String> {
    let file = PathBuf::from(file);
    assert!(output(proved, &file) == output(fast, &file), "the two programs print the same");
    let (mut proved_time, mut fast_time) = (f64::INFINITY, f64::INFINITY);
    for _ in 0..RUNS {
        proved_time = proved_time.min(seconds(proved, &file));
        fast_time = fast_time.min(seconds(fast, &file));
    }
    let a_second = |seconds: f64| thousands(LINES as f64 / seconds);
    vec![
        name.to_string(),
        thousands(bytes as f64),
        a_second(proved_time),
        a_second(fast_time),
        ratio(proved_time, fast_time, goals::PROGRAM),
    ]
}

fn command(program: &str, file: &Path) -> Command {
    let mut command = Command::new(program);
    command.stdin(File::open(file).expect("the schedule is there"));
    command
}

fn output(program: &str, file: &Path) -> Vec<u8> {
    command(program, file).output().expect("the program runs").stdout
}

fn seconds(program: &str, file: &Path) -> f64 {
    let started = Instant::now();
    let status = command(program, file).stdout(Stdio::null()).status().expect("the program runs");
    assert!(status.success());
    started.elapsed().as_secs_f64()
}

/// The first lines of a text.
fn first_lines(text: &[u8]) -> Vec<u8> {
    text.split_inclusive(|&byte| byte == b'\n').take(LINES).flatten().copied().collect()
}

/// Openings enough for all lines.
fn random() -> Vec<u8> {
    let text = schedule(1, 800);
    let cut = first_lines(&text);
    assert_eq!(cut.iter().filter(|&&byte| byte == b'\n').count(), LINES);
    cut
}

/// A plan again and again.
fn accepted(method: u32, servers: u32, clients: u32, times: usize) -> Vec<u8> {
    let plan = in_turn(method, servers, clients, times);
    let steps = [&plan.opening].into_iter().chain(&plan.steps).cycle().take(LINES);
    steps.flat_map(|step| [&line_of(step)[..], b"\n"].concat()).collect()
}
