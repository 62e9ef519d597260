//! The tables of method 1 in tests/saved, which a version before document 02's E10 saved: they are those of the former rules, and today's
//! steps play them to their end.

use model::answer::printed;
use model::line::{lines, step_of};
use saved::{lengthened, play, read, written, By};
use std::path::{Path, PathBuf};
use words::Tables;

const NAMES: [&str; 4] = ["crossing-a", "losses-a", "overlaps-a", "unfinished-a"];

fn file(name: &str, end: &str) -> Vec<u8> {
    let folder: PathBuf = Path::new(env!("CARGO_MANIFEST_DIR")).join("../../../tests/saved");
    std::fs::read(folder.join(format!("{name}.{end}"))).expect("a saved run")
}

fn text(name: &str, end: &str) -> String {
    String::from_utf8(file(name, end)).expect("a text")
}

fn players() -> Vec<By> {
    [Some(By::Model), By::proved()].into_iter().flatten().collect()
}

/// The schedule that they were saved behind, by the model's former rules: the same answers and the same words.
#[test]
fn they_are_what_the_former_rules_leave() {
    for name in NAMES {
        let mut tables = Tables::filled(16, 16, 0);
        let mut answers = String::new();
        for (number, line) in (1..).zip(lines(&file(name, "former.txt"))) {
            let outcome = words::take_mixed(&mut tables, &step_of(line).expect("a step"));
            answers += &format!("{number} {}\n", printed(&outcome));
        }
        assert_eq!(answers, text(name, "former.out"), "{name}");
        assert_eq!(written(&tables), text(name, "tables"), "{name}");
    }
}

#[test]
fn they_play_to_their_end() {
    for by in players() {
        for name in NAMES {
            let found = read(&file(name, "tables")).unwrap();
            by.sound(&found).unwrap();
            let (mut tables, mut out) = (lengthened(found), Vec::new());
            play(by, &mut tables, &file(name, "txt"), &mut out).unwrap();
            assert_eq!(String::from_utf8(out).unwrap(), text(name, "out"), "{name}");
            by.sound(&tables).unwrap();
        }
    }
}

/// No opening by method 1 follows, and any other does: then WRITEs and READs begin again.
#[test]
fn another_method_can_be_opened_behind_them() {
    let schedule = b"O 1 2 2 1 2\nR 0 1\nO 2 2 2 1 2\nR 0 1\nW 1 3 0 5 6\nO 1 2 2 1 2\n> 1 0\n";
    for by in players() {
        for name in NAMES {
            let (mut tables, mut out) = (lengthened(read(&file(name, "tables")).unwrap()), Vec::new());
            play(by, &mut tables, schedule, &mut out).unwrap();
            assert_eq!(String::from_utf8(out).unwrap(), "1 no 1\n2 no 4\n3 ok\n4 ok\n5 ok\n6 no 1\n7 ok\n", "{name}");
        }
    }
}
