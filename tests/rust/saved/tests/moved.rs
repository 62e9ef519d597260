//! Every schedule of the repository, cut in two at many places: what is saved at the cut and taken up behind it gives what the whole gives.

use saved::{lengthened, play, read, written, By, Refused};
use std::path::{Path, PathBuf};
use words::layout::{CLIENTS, METHOD, SERVERS};
use words::Tables;

/// By the model, and by the proved crates where they are linked.
fn players() -> Vec<By> {
    [Some(By::Model), By::proved()].into_iter().flatten().collect()
}

fn root() -> PathBuf {
    Path::new(env!("CARGO_MANIFEST_DIR")).join("../../..")
}

/// Where the libraries are built, they are what is tried.
#[test]
fn the_proved_crates_are_tried() {
    let built = |name: &str| root().join(format!("crates/{name}/out/lib{name}.a")).exists();
    assert_eq!(By::proved().is_some(), built("store_exports") && built("wire_exports"));
}

fn schedules() -> Vec<(Vec<u8>, String)> {
    let root = root();
    let folders = ["examples", "tests/schedules"].map(|name| root.join(name));
    let files = folders.iter().flat_map(|folder| std::fs::read_dir(folder).unwrap()).map(|file| file.unwrap().path());
    let texts = files.filter(|file| file.extension().is_some_and(|end| end == "txt"));
    let pair = |file: PathBuf| {
        let wanted = std::fs::read_to_string(file.with_extension("out")).unwrap();
        (std::fs::read(&file).unwrap(), wanted)
    };
    texts.map(pair).collect()
}

fn played(by: By, tables: &mut Tables, schedule: &[u8]) -> String {
    let mut out = Vec::new();
    play(by, tables, schedule, &mut out).unwrap();
    String::from_utf8(out).unwrap()
}

fn empty() -> Tables {
    Tables::filled(16, 16, 0)
}

/// What is printed, without the number of each answer; the register's lines begin with a letter.
fn answers(text: &str) -> Vec<String> {
    let answer = |line: &str| match line.split_once(' ') {
        Some((number, rest)) if number.bytes().all(|byte| byte.is_ascii_digit()) => rest.to_string(),
        _ => line.to_string(),
    };
    text.lines().map(answer).collect()
}

fn in_register(line: &String) -> bool {
    line.starts_with("W ") || line.starts_with("R ")
}

#[test]
fn whole_schedules_print_what_they_must() {
    assert!(schedules().len() > 8);
    for by in players() {
        for (schedule, wanted) in schedules() {
            assert_eq!(played(by, &mut empty(), &schedule), wanted);
        }
    }
}

#[test]
fn what_is_saved_goes_on() {
    let mut cuts = 0;
    for by in players() {
        for (schedule, wanted) in schedules() {
            let ends: Vec<usize> = (1..schedule.len()).filter(|&at| schedule[at - 1] == b'\n').collect();
            for &cut in ends.iter().step_by(ends.len() / 8 + 1) {
                let mut tables = empty();
                let first = answers(&played(by, &mut tables, &schedule[..cut]));
                if by.sound(&tables).is_err() {
                    continue; // no press is open yet
                }
                let found = read(written(&tables).as_bytes()).unwrap();
                by.sound(&found).unwrap();
                let mut moved = lengthened(found);
                by.sound(&moved).unwrap();
                let second = answers(&played(by, &mut moved, &schedule[cut..]));
                let both: Vec<String> = first.into_iter().filter(|line| !in_register(line)).chain(second).collect();
                assert_eq!(both, answers(&wanted));
                cuts += 1;
            }
        }
    }
    assert!(cuts > 60, "only {cuts} cuts were tried");
}

fn some_text() -> String {
    let mut tables = empty();
    played(By::Model, &mut tables, b"O 2 2 2 1200 30\nW 0 3 7 1800 45\nR 1 3\n> 1 16\n");
    written(&tables)
}

#[test]
fn the_text_is_one() {
    let text = some_text();
    assert!(text.starts_with("setpoint-store tables 2\ncounts 23\n2 2 2 4 1 1 1 1 1 0 "), "{text}");
    assert!(text.ends_with("\nend\n"));
    let again = read(text.as_bytes()).unwrap();
    assert_eq!(written(&again), text);
    assert_eq!(read(text.replace('\n', "\r\n").as_bytes()).unwrap(), again);
}

#[test]
fn what_is_no_text_of_tables() {
    let text = some_text();
    let first_line = "counts 23\n2 2 2";
    for (old, new, why) in [
        ("setpoint-store tables 2", "setpoint-store tables 1", "does not begin"),
        ("setpoint-store tables 2", "setpoint-store tables 3", "does not begin"),
        ("setpoint-store", "", "does not begin"),
        ("counts 23", "counts", "the table clients is missing"),
        ("counts 23", "counts 22", "the table clients is missing"),
        ("counts 23", "counts 24", "counts has 24 words"),
        ("clients 174", "clients 173", "the table links is missing"),
        ("clients 174", "clients 175", "word 174 of clients is missing"),
        ("clients 174", "clients 1393", "clients has 1393 words"),
        ("clients 174", "clients 4294967296", "clients has no number"),
        ("clients 174", "clients -1", "clients has no number"),
        ("links 136", "lines 136", "the table links is missing"),
        (first_line, "counts 23\n2 4294967296 2", "word 1 of counts"),
        (first_line, "counts 23\n2 02 2", "word 1 of counts"),
        (first_line, "counts 23\n2 +2 2", "word 1 of counts"),
        (first_line, "counts 23\n2 x 2", "word 1 of counts"),
        ("end\n", "", "does not end"),
        ("end\n", "end\nend\n", "does not end"),
    ] {
        let broken = text.replacen(old, new, 1);
        assert_ne!(broken, text);
        let Err(Refused(said)) = read(broken.as_bytes()) else { panic!("{new:?} was read") };
        assert!(said.contains(why), "{new:?}: {said}");
    }
    assert!(read(b"").is_err());
    assert!(read(b"\xff").is_err());
    for cut in (0..text.len() - 1).step_by(41) {
        assert!(read(&text.as_bytes()[..cut]).is_err(), "cut at {cut}");
    }
}

#[test]
fn what_is_not_sound_is_refused() {
    let good = read(some_text().as_bytes()).unwrap();
    for by in players() {
        by.sound(&good).unwrap();
        for (place, word) in [(METHOD, 4), (SERVERS, 3), (CLIENTS, 17), (METHOD, 0)] {
            let mut wrong = good.clone();
            wrong.counts[place] = word;
            assert_eq!(by.sound(&wrong), Err(Refused("the tables are not sound".into())));
        }
        assert!(by.sound(&empty()).is_err());
        for table in 0..8 {
            let mut short = good.clone();
            short.all_mut()[table].pop();
            assert!(by.sound(&short).is_err(), "table {table} is a word too short");
        }
    }
}
