//! What is recorded of schedules, by the model; and the file.

use frames::recording::{compare, Compared, Recording};
use model::answer::printed;
use recordings::{by_model, file, played};

/// The frames that a schedule delivers, each with the number of its line.
fn frames(schedule: &str) -> Vec<(usize, Vec<u8>)> {
    let lines = played(schedule.as_bytes(), &mut *by_model());
    lines.into_iter().filter_map(|line| Some((line.number, line.frame?))).collect()
}

fn recording(schedule: &str) -> Recording {
    Recording::of(frames(schedule).into_iter().map(|(_, frame)| frame))
}

/// Client 0 writes 1800 to server 0 with badge 7: the set and its reply, the entry and its reply.
const WRITE: &str = "O 2 1 1 1200\nW 0 1 7 1800\n> 0 0\n< 0 0\n> 0 16\n< 0 16\n";

#[test]
fn a_write() {
    let set = vec![0x10, 0x00, 0x08, 0x00, 0x03, 0x80, 0x00, 0x03, 0x84, 0x00];
    let expected = [(3, set), (4, vec![0x20, 0x00]), (5, vec![0x30, 0x80, 0x08, 0, 0, 0x80]), (6, vec![0x40, 0x80, 0x08])];
    assert_eq!(frames(WRITE), expected);
}

/// A refused or unreadable line delivers nothing, and neither does one ahead of an opening.
#[test]
fn lines_that_are_refused() {
    let schedule = "> 0 0\nx\nO 2 1 1 1200\nW 0 1 7 1800\n< 0 0\n> 0 1\n> 1 0\n> 0 0\n> 0 0\n";
    let lines = played(schedule.as_bytes(), &mut *by_model());
    let answers: Vec<String> = lines.iter().map(|line| printed(&line.outcome)).collect();
    assert_eq!(answers, ["no 2", "no 13", "ok", "ok", "no 9", "no 3", "no 3", "ok", "no 9"]);
    assert_eq!(frames(schedule).iter().map(|(number, _)| *number).collect::<Vec<_>>(), [8]);
}

/// A frame that is lost is not delivered, and what is sent again is when it arrives, as the same frame.
#[test]
fn lost_frames() {
    let schedule = WRITE.replacen("> 0 0\n", "! 0 0\n+ 0 0\n> 0 0\n! 0 0\n+ 0 0\n> 0 0\n", 1);
    let (lost, whole) = (frames(&schedule), frames(WRITE));
    assert_eq!(lost.iter().map(|(number, _)| *number).collect::<Vec<_>>(), [5, 8, 9, 10, 11]);
    assert_eq!((&lost[0].1, &lost[1].1), (&whole[0].1, &whole[0].1));
    assert_eq!(
        lost[2..].iter().map(|(_, frame)| frame).collect::<Vec<_>>(),
        whole[1..].iter().map(|(_, frame)| frame).collect::<Vec<_>>()
    );
}

/// What stands on a link when a new press is opened is never delivered.
#[test]
fn reopened() {
    let schedule = format!("O 3 1 2 5\nW 1 1 0 9\n{WRITE}");
    assert_eq!(recording(&schedule), recording(WRITE));
}

/// The requests of one WRITE arrive at two servers in either order.
#[test]
fn neighbours_at_different_targets() {
    let begin = "O 2 2 2 1200 30\nW 0 3 7 1800 45\nR 1 2\n";
    let recordings = ["> 0 0\n> 0 1\n> 1 16\n", "> 0 1\n> 1 16\n> 0 0\n"].map(|order| recording(&format!("{begin}{order}")));
    assert_ne!(recordings[0], recordings[1]);
    assert_eq!(compare(&recordings[0], &recordings[1]), Ok(Compared::Agree));
}

#[test]
fn the_file() {
    let recording = Recording::of([vec![0x20, 0x00], vec![0x40, 0x80, 0x08]]);
    let bytes = [0, 0, 0, 2, 0, 0, 0, 2, 0, 0, 0, 3, 0x20, 0x00, 0x40, 0x80, 0x08];
    assert_eq!(file::written(&recording), bytes);
    assert_eq!(file::read(&bytes), Some(recording.clone()));
    assert_eq!(file::written(&Recording::default()), [0; 4]);
    for empty in [&[][..], &[0; 4]] {
        assert_eq!(file::read(empty), Some(Recording::default()));
    }
    (1..12).for_each(|length| assert_eq!(file::read(&bytes[..length]), None));
    // Whether the lengths add up to the bytes is for the comparison to say.
    assert_eq!(file::read(&bytes[..12]), Some(Recording { bytes: vec![], ..recording }));
    assert_eq!(file::read(&[255; 8]), None);
}
