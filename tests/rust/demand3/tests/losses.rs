//! Outputs of schedules with losses, made wrong by hand: a loss is of a reply exactly where the last accepted step on its link delivered a
//! request, and a READ ends one delivery later for each lost reply, for a lost request not.

use demand3::check;

/// Written by hand on cards, with what must be printed.
const EXAMPLE: &str = include_str!("../../../../examples/losses.txt");
const EXAMPLE_PRINTED: &str = include_str!("../../../../examples/losses.out");
const CARD: &str = include_str!("../../../../tests/schedules/losses.txt");
const CARD_PRINTED: &str = include_str!("../../../../tests/schedules/losses.out");

/// A READ of one station under each method, to its end. Its request at the last link is lost once and its reply once, in this order.
const READS: [(&str, &str); 3] = [
    (
        "O 1 1 2 5\nR 0 1\n! 0 0\n+ 0 0\n> 0 0\n! 0 0\n+ 0 0\n> 0 0\n< 0 0\n",
        "1 ok\n2 ok\n3 ok\n4 ok\n5 ok\n6 ok\n7 ok\n8 ok\n9 read 0 0=5@0#0\nR 0 0 2 9 0\n",
    ),
    (
        "O 2 1 2 5\nR 0 1\n> 0 16\n< 0 16\n! 0 0\n+ 0 0\n> 0 0\n! 0 0\n+ 0 0\n> 0 0\n< 0 0\n",
        "1 ok\n2 ok\n3 ok\n4 next\n5 ok\n6 ok\n7 ok\n8 ok\n9 ok\n10 ok\n11 read 0 0=5@0#0\nR 0 0 2 11 0\n",
    ),
    (
        "O 3 1 2 5\nR 0 1\n> 0 0\n< 0 0\n! 0 16\n+ 0 16\n> 0 16\n! 0 16\n+ 0 16\n> 0 16\n< 0 16\n",
        "1 ok\n2 ok\n3 ok\n4 wait\n5 ok\n6 ok\n7 ok\n8 ok\n9 ok\n10 ok\n11 read 0 0=5@0#0\nR 0 0 2 11 0\n",
    ),
];

fn right(schedule: &str, printed: &str) {
    let found = check(schedule.as_bytes(), printed.as_bytes());
    assert!(found.is_ok(), "{found:?}");
}

/// The checker's report of an output made wrong at one place.
fn report(schedule: &str, printed: &str, old: &str, new: &str) -> String {
    right(schedule, printed);
    assert_eq!(printed.matches(old).count(), 1, "{old:?} stands once");
    let found = check(schedule.as_bytes(), printed.replacen(old, new, 1).as_bytes()).expect_err("a violation");
    assert!(found.fits, "{found}");
    found.to_string()
}

#[test]
fn the_cards_are_right() {
    let seen = check(EXAMPLE.as_bytes(), EXAMPLE_PRINTED.as_bytes()).expect("right");
    // Counted on the card: B loses a set done, a keys, an entered and a get, C an all and a get all.
    assert_eq!((seen.lost_requests, seen.lost_replies, seen.sent_again), (2, 4, 6));
    let seen = check(CARD.as_bytes(), CARD_PRINTED.as_bytes()).expect("right");
    let lost =
        CARD.lines().zip(CARD_PRINTED.lines()).filter(|(line, said)| line.starts_with('!') && said.ends_with(" ok")).count();
    assert_eq!(seen.lost_requests + seen.lost_replies, lost);
    assert!(seen.lost_requests > 10 && seen.lost_replies > 10);
}

#[test]
fn a_read_ends_one_delivery_later_for_a_lost_reply() {
    for (schedule, printed) in READS {
        let last = printed.lines().find(|line| line.contains("read")).expect("a READ");
        let number = last.split(' ').next().expect("a number");
        let method = &schedule[2..3];
        let due = if method == "1" { "3 of 3" } else { "5 of 5" };
        let found = report(schedule, printed, last, &format!("{number} wait"));
        assert!(found.contains(&format!("a READ has had {due} deliveries and has not ended")), "{found}");
    }
}

/// Were the lost request counted too, this READ would end one delivery later; were the lost reply not counted, one earlier.
#[test]
fn a_read_that_ends_by_another_count() {
    // The reply is lost when it was answered once: three deliveries have been had, and the panel was told of none.
    let early = "O 1 2 2 5 6\nR 0 3\n> 0 0\n! 0 0\n> 0 1\n< 0 1\n+ 0 0\n> 0 0\n< 0 0\n";
    let printed = "1 ok\n2 ok\n3 ok\n4 ok\n5 ok\n6 wait\n7 ok\n8 ok\n9 read 0 0=5@0#0 1=6@0#0\nR 0 0 2 9 0\n";
    let found = report(early, printed, "6 wait", "6 read 0 0=5@0#0 1=6@0#0");
    assert!(found.contains("a READ ends after 3 deliveries and not 5"), "{found}");
    // Without the loss of the reply the fourth would be the last.
    let late = "O 1 2 2 5 6\nR 0 3\n! 0 0\n+ 0 0\n> 0 0\n> 0 1\n< 0 1\n< 0 0\n";
    let printed = "1 ok\n2 ok\n3 ok\n4 ok\n5 ok\n6 ok\n7 wait\n8 read 0 0=5@0#0 1=6@0#0\nR 0 0 2 8 0\n";
    let found = report(late, printed, "8 read 0 0=5@0#0 1=6@0#0", "8 wait");
    assert!(found.contains("a READ has had 4 of 4 deliveries and has not ended"), "{found}");
    // And one that takes the request for answered: its reply would be the third of four deliveries.
    let found = report(late, printed, "7 wait", "7 read 0 0=5@0#0 1=6@0#0");
    assert!(found.contains("a READ ends after 3 deliveries and not 4"), "{found}");
}

/// Losses are steps: without their numbers the register is another.
#[test]
fn a_loss_that_takes_no_step_number() {
    let (schedule, printed) = READS[0];
    for wrong in ["R 0 0 2 8 0", "R 0 0 2 7 0", "R 0 0 2 5 0"] {
        assert!(report(schedule, printed, "R 0 0 2 9 0", wrong).contains("the register has"), "{wrong}");
    }
}

/// A WRITE whose tag was lost and which is answered the last tag, or which is entered twice.
#[test]
fn another_tag_for_what_is_sent_again() {
    assert!(report(CARD, CARD_PRINTED, "102 write 1", "102 write 2").contains("write answers 2, and the WRITE's tag is 1"));
    assert!(report(CARD, CARD_PRINTED, "102 write 1", "102 write 3").contains("write answers 3, and the WRITE's tag is 1"));
}

/// What the panel had asked for, or what the log has today.
#[test]
fn what_is_shown_behind_losses() {
    let shown = "read 3 0=1900@2#8 1=60@3#9";
    for wrong in ["read 3 0=2000@2#8 1=60@3#9", "read 3 0=2000@4#10 1=70@4#10", "read 3 0=1900@2#8 1=50@2#8"] {
        assert!(report(CARD, CARD_PRINTED, shown, wrong).contains("the row has"), "{wrong}");
    }
    // Tag 2 would be the keys that were lost; the READ may have it, and then it stands ahead of c: the register is another.
    assert!(report(CARD, CARD_PRINTED, shown, "read 2 0=1900@2#8 1=50@2#8").contains("the register has"));
    assert!(report(CARD, CARD_PRINTED, "55 read 1 0=1800@1#7 1=45@1#7", "55 read 1 0=1800@1#7 1=45@1#0").contains("the row has"));
}

/// A run that was refused nothing, with the answer of one line made another.
fn edited(lines: &[&str], answers: &[&str], line: usize, answer: &str) -> String {
    let schedule = lines.join("\n") + "\n";
    let text = |answers: &[&str]| (1..).zip(answers).map(|(number, said)| format!("{number} {said}\n")).collect::<String>();
    right(&schedule, &text(answers));
    let mut wrong = answers.to_vec();
    wrong[line - 1] = answer;
    check(schedule.as_bytes(), text(&wrong).as_bytes()).expect_err("a violation").to_string()
}

#[test]
fn steps_on_links_that_are_lost_or_not() {
    let lines = [
        "O 2 1 2 5",
        "W 0 1 0 6",
        "! 0 0",
        "> 0 0",
        "< 0 0",
        "! 0 0",
        "+ 0 0",
        "+ 0 0",
        "> 0 0",
        "! 0 0",
        "+ 0 0",
        "+ 1 0",
        "! 1 0",
    ];
    let answers = ["ok", "ok", "ok", "no 9", "no 9", "no 14", "ok", "no 15", "ok", "ok", "ok", "no 15", "no 14"];
    for (line, answer, why) in [
        (3, "wait", "this step has no such answer"),
        (4, "ok", "a delivery is accepted on a lost link"),
        (5, "wait", "a delivery is accepted on a lost link"),
        (6, "ok", "a link is lost that is lost already"),
        (7, "no 15", "the link is lost, and sending again is refused by 15"),
        (7, "no 9", "the link is lost, and sending again is refused by 9"),
        (7, "next", "this step has no such answer"),
        (8, "ok", "a link is sent again that is not lost"),
        (9, "no 8", "the link has a request, and its delivery is refused by 8"),
        (9, "no 9", "the link has a request, and its delivery is refused by 9"),
        (10, "no 14", "the link has a reply, and its loss is refused by 14"),
        (12, "ok", "sending again is accepted for a panel that does nothing"),
        (13, "ok", "a loss is accepted for a panel that does nothing"),
    ] {
        let found = edited(&lines, &answers, line, answer);
        assert_eq!(found, format!("line {line}: {why}"));
    }
}

#[test]
fn losses_of_what_was_sent_again() {
    let lines = ["O 2 1 1 5", "W 0 1 0 6", "! 0 0", "+ 0 0", "! 0 0", "! 0 2", "+ 0 0", "! 0 16"];
    let answers = ["ok", "ok", "ok", "ok", "ok", "no 3", "ok", "no 14"];
    for (line, answer, why) in [
        (5, "no 14", "the link has a request, and its loss is refused by 14"),
        (6, "ok", "a loss is accepted for no target"),
        (7, "no 15", "the link is lost, and sending again is refused by 15"),
    ] {
        assert_eq!(edited(&lines, &answers, line, answer), format!("line {line}: {why}"));
    }
}

/// Of every number too few or too many it is no step, and before an opening a step gives 2.
#[test]
fn lines_that_are_none() {
    for letter in ["!", "+"] {
        let schedule = format!("{letter} 0 0\n{letter} 0\n{letter} 0 0 0\n{letter}\n{letter} 00 0\n");
        let printed = "1 no 2\n2 no 13\n3 no 13\n4 no 13\n5 no 13\n";
        assert!(report(&schedule, printed, "1 no 2", "1 ok").contains("before any opening"));
        assert!(report(&schedule, printed, "1 no 2", "1 no 13").contains("a readable line"));
        for line in 2..=5 {
            assert!(report(&schedule, printed, &format!("{line} no 13"), &format!("{line} no 2")).contains("no shape"));
        }
    }
}
