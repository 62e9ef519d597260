//! Outputs made wrong by hand: the checker must report each, and for the right reason.

use demand3::check;
use std::path::Path;

/// Document 01's sample.
const SAMPLE: &str = include_str!("../../../../examples/sample.txt");
const PRINTED: &str = include_str!("../../../../examples/sample.out");

/// The checker's report of an output made wrong at one place.
fn report(schedule: &str, printed: &str, right: &str, wrong: &str) -> String {
    assert!(check(schedule.as_bytes(), printed.as_bytes()).is_ok(), "the output is right before the edit");
    assert!(printed.contains(right), "the edit changes something");
    let edited = printed.replacen(right, wrong, 1);
    check(schedule.as_bytes(), edited.as_bytes()).expect_err("a violation").to_string()
}

fn sample_report(right: &str, wrong: &str) -> String {
    report(SAMPLE, PRINTED, right, wrong)
}

/// What the model prints, for schedules other than the sample.
fn printed(schedule: &str) -> String {
    String::from_utf8(model::replay(schedule.as_bytes())).unwrap()
}

/// Method C: a WRITE of panel 0 to its end, then a READ of panel 1 to its end.
const WRITE_THEN_READ: &str = "O 3 1 2 5\nW 0 1 0 6\n> 0 0\n< 0 0\n> 0 16\n< 0 16\nR 1 1\n> 1 0\n> 1 16\n< 1 0\n< 1 16\n";

#[test]
fn the_sample_is_right() {
    let summary = check(SAMPLE.as_bytes(), PRINTED.as_bytes()).unwrap();
    assert_eq!((summary.lines, summary.accepted, summary.tagged_writes, summary.finished_reads), (15, 15, 1, 1));
}

#[test]
fn a_read_that_always_shows_the_opening() {
    // Shown and registered consistently at tag 0: only real time is broken.
    let right = printed(WRITE_THEN_READ);
    let wrong = right
        .replace("11 read 1 0=6@1#0", "11 read 0 0=5@0#0")
        .replace("W 1 0 1 2 6 0\nR 1 1 7 11 0\n", "R 0 1 7 11 0\nW 1 0 1 2 6 0\n");
    assert_ne!(right, wrong);
    let report = check(WRITE_THEN_READ.as_bytes(), wrong.as_bytes()).unwrap_err();
    assert!(report.what.starts_with("real time"), "{report}");
}

#[test]
fn a_setpoint_that_is_not_the_rows() {
    assert!(sample_report("1=30@0#0", "1=45@0#0").contains("the row has"));
    assert!(sample_report("read 0 0=1200@0#0 1=30@0#0", "read 0 0=1200@0#0").contains("the row has"));
    assert!(sample_report("read 0 0=1200@0#0 1=30@0#0", "read 0 1=30@0#0 0=1200@0#0").contains("the row has"));
}

/// Method B: panel 0 writes station 0 (tag 1), panel 1 station 1 twice (tags 2 and 3), nobody station 2. Panel 0's READ of all is
/// told tag 3; before it ends, panel 1 writes all (tag 4). The badges are 7, 8, 65535 and 263, which is 7 but for a ninth bit.
const FOUR_WRITES: &str = "O 2 3 2 5 6 7\n\
    W 0 1 7 10 0 0\n> 0 0\n< 0 0\n> 0 16\n< 0 16\n\
    W 1 2 8 0 20 0\n> 1 1\n< 1 1\n> 1 16\n< 1 16\n\
    W 1 2 65535 0 30 0\n> 1 1\n< 1 1\n> 1 16\n< 1 16\n\
    R 0 7\n> 0 16\n\
    W 1 7 263 40 40 40\n> 1 0\n< 1 0\n> 1 1\n< 1 1\n> 1 2\n< 1 2\n> 1 16\n< 1 16\n\
    < 0 16\n> 0 0\n< 0 0\n> 0 1\n< 0 1\n> 0 2\n< 0 2\n";

#[test]
fn right_setpoints_with_a_wrong_tag() {
    let right = printed(FOUR_WRITES);
    let shown = "read 3 0=10@1#7 1=30@3#65535 2=7@0#0";
    let wrong = [
        ("the READ's own tag for every station", [3, 3, 3]),
        ("the newest entry's, whatever its mask", [4, 4, 4]),
        ("one too small", [0, 2, 0]),
        ("the WRITE before to the station, which is its panel's count too", [1, 2, 0]),
        ("one too large", [2, 4, 1]),
        ("one too large for the opening alone", [1, 3, 1]),
        ("no tag but the opening's", [0, 0, 0]),
        ("the next WRITE to the station", [4, 3, 0]),
        ("another station's", [3, 1, 0]),
        ("a tag that no WRITE has", [1, 5, 0]),
    ];
    for (what, [first, second, third]) in wrong {
        let wrong = format!("read 3 0=10@{first}#7 1=30@{second}#65535 2=7@{third}#0");
        assert!(report(FOUR_WRITES, &right, shown, &wrong).contains("the row has"), "{what}");
    }
}

/// Setpoints and tags are right, badges are not: "the badge that belongs to the same WRITE as the setpoint beside it".
#[test]
fn right_setpoints_and_tags_with_a_wrong_badge() {
    let right = printed(FOUR_WRITES);
    let shown = "read 3 0=10@1#7 1=30@3#65535 2=7@0#0";
    let wrong = [
        ("the badge of the latest version that each station holds", [263, 263, 263]),
        ("the reader's own, of its last WRITE", [7, 7, 7]),
        ("the reader's own, where a WRITE wrote the station", [7, 7, 0]),
        ("cut to 8 bits", [7, 255, 0]),
        ("the WRITE of the READ's own tag for every station", [65535, 65535, 65535]),
        ("the WRITE before to the station", [0, 8, 0]),
        ("the next WRITE to the station", [263, 65535, 0]),
        ("another station's", [65535, 7, 0]),
        ("no badge but the opening's", [0, 0, 0]),
        ("a badge for the opening", [7, 65535, 7]),
        ("the tag", [1, 3, 0]),
        ("a badge that no WRITE has", [7, 65534, 0]),
        ("beyond 16 bits", [7, 131071, 0]),
    ];
    for (what, [first, second, third]) in wrong {
        let wrong = format!("read 3 0=10@1#{first} 1=30@3#{second} 2=7@0#{third}");
        assert!(report(FOUR_WRITES, &right, shown, &wrong).contains("the row has"), "{what}");
    }
    let exchanged = "read 3 0=7@1#10 1=65535@3#30 2=0@0#7";
    assert!(report(FOUR_WRITES, &right, shown, exchanged).contains("the row has"), "badge and setpoint exchanged");
}

/// The WRITEs and the opening have equal setpoints, so that tags and badges alone tell them apart, and badges alone a READ that takes
/// the tag of one WRITE and the badge of the other.
#[test]
fn a_wrong_badge_beside_an_equal_setpoint() {
    let equal = [("5 6 7", "7 7 7"), ("10 0 0", "7 0 0"), ("20 0", "7 0"), ("30 0", "7 0"), ("40", "7")];
    let schedule = equal.iter().fold(FOUR_WRITES.to_string(), |text, (old, new)| text.replace(old, new));
    let right = printed(&schedule);
    let shown = "read 3 0=7@1#7 1=7@3#65535 2=7@0#0";
    for wrong in ["read 3 0=7@1#7 1=7@3#8 2=7@0#0", "read 3 0=7@1#263 1=7@3#65535 2=7@0#0", "read 3 0=7@1#0 1=7@3#65535 2=7@0#0"]
    {
        assert!(report(&schedule, &right, shown, wrong).contains("the row has"), "{wrong}");
    }
}

/// "The register's W line ends with it", finished or not.
#[test]
fn a_wrong_badge_in_the_register() {
    let right = printed(FOUR_WRITES);
    let line = right.lines().find(|line| line.starts_with("W 3 ")).expect("tag 3").to_string();
    let without = line.strip_suffix(" 65535").expect("its badge");
    for wrong in [" 8", " 255", " 0", " 65536", "", " 65535 0"] {
        assert!(report(FOUR_WRITES, &right, &line, &format!("{without}{wrong}")).contains("the register has"), "{wrong:?}");
    }
    let unfinished = &SAMPLE[..SAMPLE.find("< 0 16").expect("the last line")];
    let unfinished = unfinished.replace("W 0 3 0", "W 0 3 9");
    let right = printed(&unfinished);
    assert!(report(&unfinished, &right, "W 1 0 1 2 - 9", "W 1 0 1 2 - 0").contains("the register has"));
}

/// "above 65,535 giving 13", before an opening too, and a line without its badge; a line with 65,535 is a step.
#[test]
fn badges_that_are_none() {
    for line in ["W 0 1 65536 6", "W 9 0 4294967295", "W 0 1", "W 0 1 07 6", "W 0 1 65536"] {
        let schedule = format!("{line}\nO 2 1 2 5\n{line}\n");
        let right = printed(&schedule);
        assert_eq!(right, "1 no 13\n2 ok\n3 no 13\n", "{line}");
        assert!(report(&schedule, &right, "1 no 13", "1 no 2").contains("no shape"), "{line}");
        assert!(report(&schedule, &right, "3 no 13", "3 ok").contains("no shape"), "{line}");
        assert!(report(&schedule, &right, "3 no 13", "3 no 6").contains("no shape"), "{line}");
    }
    let schedule = "W 0 1 65535 6\nO 2 1 2 5\nW 0 1 65535 6\nW 1 1 0\n";
    let right = printed(schedule);
    assert_eq!(right, "1 no 2\n2 ok\n3 ok\n4 no 6\n");
    for (answer, wrong) in [("1 no 2", "1 no 13"), ("3 ok", "3 no 13"), ("4 no 6", "4 no 13")] {
        assert!(report(schedule, &right, answer, wrong).contains("a readable line"), "{wrong}");
    }
}

#[test]
fn a_wrong_tag_beside_an_equal_setpoint() {
    // The WRITE changes nothing, so that the tag alone tells it from the opening.
    let schedule = WRITE_THEN_READ.replace("W 0 1 0 6", "W 0 1 0 5");
    let right = printed(&schedule);
    assert!(report(&schedule, &right, "read 1 0=5@1#0", "read 1 0=5@0#0").contains("the row has"));
}

#[test]
fn tags_and_badges_that_are_not_readable() {
    let tags = ["1=30", "1=30@", "1=30@00", "1=30@-", "1=30@0@0", "1@0=30", "1=30@0#0 2"];
    let badges =
        ["1=30@0", "1=30@0#", "1=30@0#00", "1=30@0#-", "1=30@0#0#0", "1=30#0@0", "1#0=30@0", "1=30@0 #0", "1=30@0#4294967296"];
    for wrong in tags.into_iter().chain(badges) {
        assert!(sample_report("1=30@0#0", wrong).contains("not an answer"), "{wrong}");
    }
}

#[test]
fn an_invented_tag() {
    assert!(sample_report("write 1", "write 2").contains("write answers 2"));
    assert!(sample_report("read 0", "read 2").contains("shows tag 2"));
    assert!(sample_report("W 1 0 1 2 15 0", "W 2 0 1 2 15 0").contains("register"));
}

#[test]
fn tags_by_the_order_of_deliveries_at_the_head() {
    let schedule = "O 2 1 2 5\nW 0 1 0 6\nW 1 1 0 7\n> 0 0\n> 1 0\n< 0 0\n< 1 0\n> 1 16\n> 0 16\n< 0 16\n< 1 16\n";
    let right = printed(schedule);
    assert!(report(schedule, &right, "10 write 2", "10 write 1").contains("write answers 1"));
}

#[test]
fn an_invented_overlap() {
    assert!(sample_report("R 0 1 4 14 1", "R 0 1 4 14 0").contains("register"));
}

/// Document 02's E7, by hand: panels that are switched off in their WRITE before, during and after a READ.
#[test]
fn unfinished_writes_in_the_overlap() {
    let cards = ["b", "c"].map(|method| {
        let root = Path::new(env!("CARGO_MANIFEST_DIR")).join("../../../tests/schedules");
        let text = |end: &str| std::fs::read_to_string(root.join(format!("unfinished_{method}.{end}"))).expect("a schedule");
        (text("txt"), text("out"))
    });
    for (schedule, printed) in &cards {
        for line in printed.lines().filter(|line| line.starts_with("R ")) {
            let (front, overlap) = line.rsplit_once(' ').expect("an overlap");
            let right: usize = overlap.parse().expect("a number");
            for wrong in (0..12).filter(|&wrong| wrong != right) {
                let due = format!("in place of \"{line}\"");
                assert!(report(schedule, printed, line, &format!("{front} {wrong}")).contains(&due), "{line}, {wrong}");
            }
        }
    }
    // An opening starts anew: what was in progress is so no more.
    let schedule = "O 2 1 2 5\nW 0 1 0 6\nO 2 1 2 5\nR 1 1\n> 1 16\n< 1 16\n> 1 0\nW 0 1 0 6\n< 1 0\nW 1 1 0 7\n";
    let right = "1 ok\n2 ok\n3 ok\n4 ok\n5 ok\n6 next\n7 ok\n8 ok\n9 read 0 0=5@0#0\n10 ok\nR 0 1 2 7 1\n";
    for wrong in ["R 0 1 2 7 0", "R 0 1 2 7 2", "R 0 1 2 7 3"] {
        assert!(report(schedule, right, "R 0 1 2 7 1", wrong).contains("the register has"), "{wrong}");
    }
}

#[test]
fn an_invented_step_number() {
    assert!(sample_report("R 0 1 4 14 1", "R 0 1 5 14 1").contains("register"));
    assert!(sample_report("W 1 0 1 2 15 0", "W 1 0 1 2 16 0").contains("register"));
    assert!(sample_report("W 1 0 1 2 15 0", "W 1 0 1 2 - 0").contains("register"));
}

/// Document 02's E3, by method B: of three READs of tag 0 the first begun ends last, and panel 1's second begins when its first has
/// ended. The answers and the register are written by hand.
const READS_OF_ONE_TAG: &str = "O 2 1 2 5\nR 0 1\nR 1 1\n> 1 16\n< 1 16\n> 1 0\n< 1 0\n\
    R 1 1\n> 1 16\n< 1 16\n> 1 0\n< 1 0\n> 0 16\n< 0 16\n> 0 0\n< 0 0\n";
const READS_PRINTED: &str = "1 ok\n2 ok\n3 ok\n4 ok\n5 next\n6 ok\n7 read 0 0=5@0#0\n\
    8 ok\n9 ok\n10 next\n11 ok\n12 read 0 0=5@0#0\n13 ok\n14 next\n15 ok\n16 read 0 0=5@0#0\n\
    R 0 0 2 16 0\nR 0 1 3 7 0\nR 0 1 8 12 0\n";

#[test]
fn reads_of_equal_tag_in_the_wrong_order() {
    assert_eq!(printed(READS_OF_ONE_TAG), READS_PRINTED);
    let (first, second, third) = ("R 0 0 2 16 0\n", "R 0 1 3 7 0\n", "R 0 1 8 12 0\n");
    let right = [first, second, third].concat();
    let wrong = [
        ("by end", [second, third, first]),
        ("by begin falling", [third, second, first]),
        ("a READ that had ended behind the one begun then", [first, third, second]),
    ];
    for (what, wrong) in wrong {
        let report = report(READS_OF_ONE_TAG, READS_PRINTED, &right, &wrong.concat());
        assert!(report.contains("the register has"), "{what}: {report}");
    }
}

#[test]
fn the_write_behind_its_reads_in_the_register() {
    let right = printed(WRITE_THEN_READ);
    assert!(
        report(WRITE_THEN_READ, &right, "W 1 0 1 2 6 0\nR 1 1 7 11 0\n", "R 1 1 7 11 0\nW 1 0 1 2 6 0\n").contains("register")
    );
}

#[test]
fn a_read_that_ends_one_delivery_late() {
    assert!(sample_report("14 read 0 0=1200@0#0 1=30@0#0", "14 wait").contains("6 of 6 deliveries and has not ended"));
}

#[test]
fn a_read_that_ends_early() {
    assert!(sample_report("12 wait", "12 read 0 0=1200@0#0 1=30@0#0").contains("ends after 4 deliveries"));
}

#[test]
fn wait_for_ever_under_a() {
    let schedule = "O 1 1 2 5\nR 0 1\n> 0 0\n< 0 0\n";
    let right = "1 ok\n2 ok\n3 ok\n4 read 0 0=5@0#0\nR 0 0 2 4 0\n";
    assert!(report(schedule, right, "4 read 0 0=5@0#0", "4 wait").contains("2 of 2 deliveries"));
}

#[test]
fn ok_with_no_reply_on_the_link() {
    assert!(sample_report("12 wait", "12 no 9").contains("the link has a reply"));
}

#[test]
fn a_reply_without_a_request() {
    assert!(sample_report("11 ok", "11 no 9").contains("no request"));
}

#[test]
fn answers_that_no_step_has() {
    assert!(sample_report("7 wait", "7 ok").contains("no such answer"));
    assert!(sample_report("3 ok", "3 wait").contains("no such answer"));
    assert!(sample_report("15 write 1", "15 read 1 0=1800@1#0 1=45@1#0").contains("a WRITE answers read"));
    assert!(sample_report("9 ok", "8 ok").contains("another line number"));
    assert!(sample_report("9 ok", "9 OK").contains("not an answer"));
}

#[test]
fn missing_and_added_lines() {
    assert!(sample_report("W 1 0 1 2 15 0\n", "").contains("register"));
    assert!(sample_report("W 1 0 1 2 15 0\n", "W 1 0 1 2 15 0\nW 1 0 1 2 15 0\n").contains("goes on"));
    assert!(check(SAMPLE.as_bytes(), b"1 ok\n").is_err());
}

#[test]
fn unreadable_lines_and_steps_before_an_opening() {
    let schedule = "R 0 1\nR 0 01\n";
    let right = printed(schedule);
    assert_eq!(right, "1 no 2\n2 no 13\n");
    assert!(report(schedule, &right, "1 no 2", "1 ok").contains("before any opening"));
    assert!(report(schedule, &right, "1 no 2", "1 no 13").contains("readable"));
    assert!(report(schedule, &right, "2 no 13", "2 no 2").contains("no shape"));
}

#[test]
fn the_model_on_random_schedules() {
    for seed in 0..60 {
        let schedule = schedules::schedule(seed, 4);
        let found = check(&schedule, &model::replay(&schedule));
        assert!(found.is_ok(), "seed {seed}: {found:?}");
    }
}

#[test]
fn a_line_that_ends_in_another_byte() {
    assert!(check(SAMPLE.as_bytes(), PRINTED.replacen("1 ok\n", "1 ok\r\n", 1).as_bytes()).is_err());
}

#[test]
fn an_opening_that_fits_no_press() {
    for (opening, printed) in
        [("O 4 1 2 5\n", "1 ok\n"), ("O 2 0 2\n", "1 ok\n"), ("O 2 1 0 5\n", "1 ok\n"), ("O 1 1 1 5\n", "1 ok\n")]
    {
        let report = check(opening.as_bytes(), printed.as_bytes()).expect_err("a violation");
        assert!(report.what.contains("fits no press"), "{report}");
    }
}

#[test]
fn a_delivery_to_a_server_that_is_not_there() {
    let report = check(b"O 3 1 2 5\nR 1 1\n> 1 3\n", b"1 ok\n2 ok\n3 ok\n").expect_err("a violation");
    assert!(report.what.contains("no target"), "{report}");
}

/// What is said of two texts that are not a schedule and its output, with `fits` false.
fn unfit(output: &str) -> String {
    let found = check(SAMPLE.as_bytes(), output.as_bytes()).expect_err("they do not fit");
    assert!(!found.fits, "{found}");
    found.to_string()
}

#[test]
fn texts_that_do_not_fit_each_other() {
    assert!(unfit("1 ok\n").contains("has 15 lines, and the output only 1"));
    assert!(unfit(PRINTED.trim_end()).contains("it is cut"));
    assert!(unfit(&PRINTED.replacen("R 0 ", "16 ok\nR 0 ", 1)).contains("no line of a register: \"16 ok\""));
    // It is asked before the demand is: the READ is wrong too.
    assert!(unfit(&PRINTED.replacen("14 read 0", "14 read 1", 1).replacen("15 write", "15 Write", 1)).contains("not an answer"));
    assert!(check(SAMPLE.as_bytes(), PRINTED.replacen("14 read 0", "14 read 1", 1).as_bytes()).is_err_and(|found| found.fits));
}
