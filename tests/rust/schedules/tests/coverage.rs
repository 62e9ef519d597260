//! That the schedules reach what they are for: every answer, every refusal that an opened run has, and the limits.

use model::answer::word;
use model::{line, Player, Refusal, Step};
use schedules::schedule;
use std::collections::BTreeMap;

/// How often each answer occurs in schedules of these seeds.
fn answers(seeds: std::ops::Range<u64>, sections: usize) -> BTreeMap<String, usize> {
    let mut found = BTreeMap::new();
    for seed in seeds {
        let mut player = Player::default();
        for line in line::lines(&schedule(seed, sections)) {
            *found.entry(word(&player.take_line(line))).or_insert(0) += 1;
        }
    }
    found
}

#[test]
fn every_answer_occurs() {
    let found = answers(0..40, 12);
    for answer in ["ok", "wait", "next", "write", "read"] {
        assert!(found.get(answer).is_some_and(|&times| times > 200), "{answer}: {found:?}");
    }
    for number in [1, 2, 3, 5, 6, 7, 9, Refusal::Unreadable as u8, 14, 15] {
        assert!(found.contains_key(&format!("no {number}")), "{number}: {found:?}");
    }
    // No opening leads to tables of method 1.
    assert!(!found.contains_key("no 4"));
}

#[test]
fn about_a_third_of_the_lines_is_refused() {
    let found = answers(40..60, 10);
    let all: usize = found.values().sum();
    let refused: usize = found.iter().filter(|(answer, _)| answer.starts_with("no ")).map(|(_, times)| times).sum();
    assert!((30..37).contains(&(100 * refused / all)), "{refused} of {all}");
}

/// A line of every letter, `!` and `+` among those that are not readable too: one of six lines loses or sends again.
#[test]
fn about_a_sixth_of_the_lines_loses_or_sends_again() {
    let (mut all, mut losses, mut unreadable) = (0, 0, 0);
    for seed in 100..120 {
        for line in line::lines(&schedule(seed, 10)) {
            all += 1;
            match line::step_of(line) {
                Some(Step::Lose { .. } | Step::Resend { .. }) => losses += 1,
                None if line.starts_with(b"!") || line.starts_with(b"+") => unreadable += 1,
                _ => {}
            }
        }
    }
    assert!((15..=18).contains(&(100 * losses / all)), "{losses} of {all}");
    assert!(unreadable > 100, "{unreadable}");
}

/// The numbers of a W line, where nothing else stands behind its letter.
fn write_numbers(line: &[u8]) -> Option<Vec<u32>> {
    let text = std::str::from_utf8(line).ok()?;
    text.strip_prefix("W ")?.split(' ').map(|word| word.parse().ok()).collect()
}

/// The badges of accepted WRITEs, and W lines whose badge is none or missing.
#[test]
fn badges_of_every_kind_occur() {
    let (mut accepted, mut beyond, mut missing) = (BTreeMap::new(), 0, 0);
    for seed in 60..100 {
        let mut player = Player::default();
        for line in line::lines(&schedule(seed, 12)) {
            let outcome = player.take_line(line);
            match write_numbers(line).as_deref() {
                Some(&[_, _, badge, ..]) if outcome.is_ok() => *accepted.entry(badge).or_insert(0) += 1,
                Some(&[_, _, badge, ..]) if badge >= 65_536 => beyond += 1,
                Some([_, _]) => missing += 1,
                _ => {}
            }
        }
    }
    for badge in [0, 7, 255, 256, 263, 65_535] {
        assert!(accepted.contains_key(&badge), "{badge}: {accepted:?}");
    }
    assert!(accepted.keys().all(|&badge| badge < 65_536) && accepted.len() > 100);
    assert!(beyond > 20 && missing > 20, "{beyond} beyond 65,535, {missing} missing");
}

#[test]
fn the_same_seed_gives_the_same_text() {
    assert_eq!(schedule(7, 3), schedule(7, 3));
    assert_ne!(schedule(7, 3), schedule(8, 3));
}
