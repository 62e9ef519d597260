//! Document 01's sample, and the readings of its text that an input can show.

use model::replay;

const INPUT: &str = include_str!("../../../../examples/sample.txt");
const OUTPUT: &str = include_str!("../../../../examples/sample.out");

/// What the program prints, as text.
fn printed(input: &str) -> String {
    String::from_utf8(replay(input.as_bytes())).expect("the output is text")
}

/// The answers alone, of inputs that print no register.
fn answers(input: &str) -> Vec<String> {
    let text = printed(input);
    text.lines().map(|line| line.split_once(' ').expect("number and answer").1.to_string()).collect()
}

#[test]
fn the_sample_prints_its_output() {
    assert_eq!(printed(INPUT), OUTPUT);
}

#[test]
fn the_sample_shows_the_opening() {
    assert!(printed(INPUT).contains("\n14 read 0 0=1200@0#0 1=30@0#0\n"));
}

#[test]
fn a_missing_last_newline_changes_nothing() {
    assert_eq!(printed(INPUT.trim_end()), OUTPUT);
}

#[test]
fn an_empty_text_prints_nothing() {
    assert_eq!(printed(""), "");
}

#[test]
fn before_any_opening() {
    assert_eq!(
        answers("R 99 0\nW 0 1 0 1\n> 0 0\n< 0 0\nO 4 1 1 5\nO 1 1 1 5\n\nhello\nW 0 1\nW 0 1 65536 1\nW 0 1 65535\n"),
        ["no 2", "no 2", "no 2", "no 2", "no 1", "no 1", "no 13", "no 13", "no 13", "no 13", "no 2"]
    );
}

#[test]
fn a_refused_opening_leaves_the_store() {
    assert_eq!(answers("O 2 1 1 7\nR 0 1\nO 2 1 1\n> 0 16\n< 0 16\n"), ["ok", "ok", "no 1", "ok", "next"]);
}

#[test]
fn shapes() {
    assert_eq!(
        answers("O 2 2 1 5 6\nO 2 2 2\nO 2 2\nW 0 3 0\nW 0 3\nW 0\nR 0 1 5\nR 0 01\nR 0 4294967296\nR 0 4294967295\n"),
        ["ok", "no 1", "no 13", "no 6", "no 13", "no 13", "no 13", "no 13", "no 13", "no 6"]
    );
    for odd in
        ["", " ", "R", "R ", "R  0 1", " R 0 1", "R 0 1 ", "R 0 1\r", "r 0 1", "R0 1", "R -1 1", "R +1 1", "R 00 1", "R 0 1x"]
    {
        assert_eq!(answers(&format!("{odd}\n")), ["no 13"], "{odd:?}");
    }
}

/// "above 65,535 giving 13", whatever else is wrong with the line.
#[test]
fn badges_of_a_line() {
    for (badge, answer) in [("0", "no 5"), ("7", "no 5"), ("65535", "no 5")] {
        assert_eq!(answers(&format!("O 2 1 1 5\nR 0 1\nW 0 1 {badge} 6\n"))[2], answer, "{badge}");
    }
    for badge in ["65536", "65543", "131072", "4294967295", "4294967296", "00", "07", "-1", ""] {
        let line = format!("W 9 0 {badge} 6");
        assert_eq!(answers(&format!("{line}\nO 2 1 1 5\n{line}\n")), ["no 13", "ok", "no 13"], "{badge}");
    }
    assert!(printed("O 2 1 1 5\nW 0 1 65535 6\n> 0 0\n< 0 0\n> 0 16\n").ends_with("W 1 0 1 2 - 65535\n"));
}

/// Of 200 bytes a W line has at most 96 setpoints.
#[test]
fn the_most_setpoints_of_a_line() {
    let most = format!("W 0 1 0{}", " 7".repeat(96));
    assert_eq!(most.len(), 199);
    assert_eq!(answers(&format!("O 2 1 1 5\n{most}\n{most} 7\n{most}7\n")), ["ok", "no 6", "no 13", "no 6"]);
}

#[test]
fn two_hundred_bytes_are_a_line() {
    let most = format!("O 2 2{}", " 7".repeat(97) + "0");
    assert_eq!(most.len(), 200);
    let longer = format!("{most}0");
    let longest = "x".repeat(5000);
    assert_eq!(answers(&format!("{most}\n{longer}\n{longest}\n{most}")), ["no 1", "no 13", "no 13", "no 1"]);
}
