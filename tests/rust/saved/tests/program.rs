//! The program `saved-replay` on files that are right and on what it must refuse: what it prints, what it says, its exit status.

use std::io::Write;
use std::path::PathBuf;
use std::process::{Command, Stdio};

const OPENED: &str = "O 2 2 2 1200 30\nW 0 3 7 1800 45\n";

struct Folder(PathBuf);

impl Folder {
    fn new(name: &str) -> Folder {
        let folder = std::env::temp_dir().join(format!("saved-replay-{name}-{}", std::process::id()));
        std::fs::create_dir_all(&folder).unwrap();
        Folder(folder)
    }

    fn file(&self, name: &str) -> String {
        self.0.join(name).to_str().unwrap().to_string()
    }
}

impl Drop for Folder {
    fn drop(&mut self) {
        let _ = std::fs::remove_dir_all(&self.0);
    }
}

/// The exit status, standard output and standard error.
fn run(words: &[&str], schedule: &str) -> (i32, String, String) {
    let mut command = Command::new(env!("CARGO_BIN_EXE_saved-replay"));
    command.args(words).stdin(Stdio::piped()).stdout(Stdio::piped()).stderr(Stdio::piped());
    let mut child = command.spawn().unwrap();
    // The program may have ended already, where it refuses.
    let _ = child.stdin.take().unwrap().write_all(schedule.as_bytes());
    let done = child.wait_with_output().unwrap();
    (done.status.code().unwrap(), String::from_utf8(done.stdout).unwrap(), String::from_utf8(done.stderr).unwrap())
}

#[test]
fn saved_and_taken_up() {
    let folder = Folder::new("good");
    let file = folder.file("tables");
    let printed = |text: &str| (0, text.to_string(), String::new());
    assert_eq!(run(&["--model", "--save", &file], OPENED), printed("1 ok\n2 ok\n"));
    assert_eq!(run(&["--model", "--from", &file, "--save", &file], "> 0 0\n< 0 0\n"), printed("1 ok\n2 wait\n"));
    assert_eq!(run(&["--model", "--from", &file], "< 0 0\n< 0 1\n> 0 1\n< 0 1\n"), printed("1 no 9\n2 no 9\n3 ok\n4 next\n"));
    // a larger press than that of the file
    assert_eq!(run(&["--model", "--from", &file], "O 3 3 16 1 2 3\n"), printed("1 ok\n"));
}

#[test]
fn what_it_refuses() {
    let folder = Folder::new("bad");
    let (good, bad, folder_name) = (folder.file("good"), folder.file("bad"), folder.0.to_str().unwrap());
    assert_eq!(run(&["--model", "--save", &good], OPENED).0, 0);
    std::fs::write(&bad, std::fs::read_to_string(&good).unwrap().replacen("\n2 2 2", "\n4 2 2", 1)).unwrap();
    let never = folder.file("never");
    for (words, status, why) in [
        (vec!["--from", &bad], 2, "refused by 2: the tables are not sound"),
        (vec!["--from", env!("CARGO_MANIFEST_DIR")], 2, "Is a directory"),
        (vec!["--from", &never], 2, "No such file"),
        (vec!["--from", concat!(env!("CARGO_MANIFEST_DIR"), "/Cargo.toml")], 2, "refused by 2: it does not begin with"),
        (vec!["--save"], 2, "usage: "),
        (vec!["--wrong"], 2, "usage: "),
        (vec!["a"], 2, "usage: "),
    ] {
        let (found, printed, said) = run(&[&["--model"], &words[..]].concat(), OPENED);
        assert_eq!((found, printed.as_str()), (status, ""), "{words:?}: {said}");
        assert!(said.contains(why) && said.lines().count() == 1, "{words:?}: {said}");
    }
    // here the schedule has been played
    for (name, schedule, status, why) in [
        (never.as_str(), "R 0 1\n", 2, "refused by 2: no press is open"),
        (folder_name, OPENED, 1, "Is a directory"),
        ("/dev/full", OPENED, 1, "No space left"),
    ] {
        let (found, printed, said) = run(&["--model", "--save", name], schedule);
        assert_eq!((found, printed.is_empty()), (status, false), "{name}: {said}");
        assert!(said.contains(why), "{name}: {said}");
    }
    assert!(!std::path::Path::new(&never).exists());
}
