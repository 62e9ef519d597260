//! Loads as text: the worked example, what is not readable or refused, and that every line is accepted.

use model::{replay, Store};
use schedules::load_text;

fn printed(line: &str) -> String {
    String::from_utf8(load_text(line.as_bytes())).expect("the output is text")
}

#[test]
fn the_worked_example() {
    let lines = "O 2 2 2 0 0\nW 0 3 0 1 1\nR 1 3\n> 1 16\n< 1 16\n> 0 1\n> 1 1\n> 1 0\n< 1 0\n< 0 1\n< 1 1\n> 0 0\n< 0 0\n";
    assert_eq!(printed("0 12 2 2 2\n"), lines);
    assert_eq!(printed("0 12 2 2 2"), lines);
    assert_eq!(printed("0 3 2 2 2\n"), lines[..lines.find("< 1 16").unwrap()]);
    assert_eq!(printed("0 0 2 2 2\n"), "O 2 2 2 0 0\n");
}

#[test]
fn not_readable() {
    for line in [
        "",
        "\n",
        " ",
        "0",
        "0 5 2 2",
        "0 5 2 2 2 2",
        " 0 5 2 2 2",
        "0 5 2 2 2 ",
        "0  5 2 2 2",
        "00 5 2 2 2",
        "0 05 2 2 2",
        "-1 5 2 2 2",
        "4294967296 5 2 2 2",
        "0 5 2 2 x",
        "O 2 2 2 0 0",
        "0,5,2,2,2",
        "0 5 2 2 2\r",
    ] {
        assert_eq!(printed(line), "no 13\n", "{line:?}");
    }
}

#[test]
fn refused() {
    for line in [
        "0 5 0 2 2",
        "0 5 4 2 2",
        "0 5 1 2 1",
        "0 5 1 2 2",
        "0 0 1 16 16",
        "0 5 2 0 2",
        "0 5 2 17 2",
        "0 5 2 4294967295 2",
        "0 5 2 2 0",
        "0 5 2 2 17",
        "0 0 9 9 9",
    ] {
        assert_eq!(printed(line), "no 1\n", "{line:?}");
    }
}

#[test]
fn every_line_is_accepted() {
    for line in ["4294967295 2000 2 2 3", "7 500 2 4 4", "3 4294967295 3 1 2", "8 900 3 16 16", "1 900 2 16 1"] {
        let schedule = load_text(line.as_bytes());
        let (lines, output) = (model::line::lines(&schedule).count(), replay(&schedule));
        let answers: Vec<&[u8]> = model::line::lines(&output).take(lines).collect();
        assert!(lines > 100 && answers.len() == lines, "{line}");
        assert!(!answers.iter().any(|answer| answer.windows(4).any(|part| part == b" no ")), "{line}");
    }
}

/// Of the smallest press the load has 510 times 5 steps, behind the opening.
#[test]
fn a_length_that_is_not_reached() {
    assert!(Store::open(2, 1, 1, &[0]).is_ok());
    assert_eq!(printed("5 4294967295 2 1 1\n").lines().count(), 1 + 510 * 5);
}
