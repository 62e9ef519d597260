//! That `compare wire`, `compare schedules`, the schedules written by hand and the check of demand 3 find registers that count the WRITEs
//! beside a READ wrongly.

use crate::arguments::Arguments;
use crate::wire_run::{self, frame_of, Wire};
use crate::{schedules_run, Report};
use model::history::{listing, Listed};
use model::line::{lines, step_of};
use model::{Player, ReadRecord, Refusal, Store, WriteRecord};
use std::path::Path;
use words::register::LINE_WORDS;
use words::Tables;

/// What is wrong.
#[derive(Clone, Copy, Debug, PartialEq)]
enum Flaw {
    Nothing,
    /// Unfinished WRITEs are not counted: document 01's words, before E7.
    UnfinishedNotCounted,
    /// Of these those without a tag are left out, or those with one.
    UntaggedLeftOut,
    TaggedLeftOut,
    /// All unfinished ones are counted, also those begun after the READ's end.
    BegunAfterCounted,
    /// Of the unfinished, those begun before the READ alone, or during it alone.
    BegunBeforeAlone,
    BegunDuringAlone,
    /// WRITEs without a tag are left out, finished or not; in a run what has ended has a tag.
    UnlistedLeftOut,
    /// Those of its own panel are left out, which in a run are not beside it.
    OwnPanelLeftOut,
    /// `≤` for `<`: a WRITE begun at the READ's end, finished or not, or unfinished alone; one that ended at its begin.
    BegunAtTheEnd,
    UnfinishedBegunAtTheEnd,
    EndedAtTheBegin,
    /// No more than one is counted.
    OneAtMost,
}

const FLAWS: [Flaw; 12] = [
    Flaw::UnfinishedNotCounted,
    Flaw::UntaggedLeftOut,
    Flaw::TaggedLeftOut,
    Flaw::BegunAfterCounted,
    Flaw::BegunBeforeAlone,
    Flaw::BegunDuringAlone,
    Flaw::UnlistedLeftOut,
    Flaw::OwnPanelLeftOut,
    Flaw::BegunAtTheEnd,
    Flaw::UnfinishedBegunAtTheEnd,
    Flaw::EndedAtTheBegin,
    Flaw::OneAtMost,
];

/// Those that no schedule shows: no two steps have one number, and a panel does one thing at a time.
const IN_TABLES_ALONE: [Flaw; 4] =
    [Flaw::OwnPanelLeftOut, Flaw::BegunAtTheEnd, Flaw::UnfinishedBegunAtTheEnd, Flaw::EndedAtTheBegin];

impl Flaw {
    fn overlap(self, writes: &[WriteRecord], read: &ReadRecord, end: u32) -> usize {
        let counted = writes.iter().filter(|write| self.overlaps(write, read, end)).count();
        if self == Flaw::OneAtMost {
            counted.min(1)
        } else {
            counted
        }
    }

    fn overlaps(self, write: &WriteRecord, read: &ReadRecord, end: u32) -> bool {
        let unfinished = write.end.is_none();
        let right = write.begin < end && write.end.is_none_or(|ended| read.begin < ended);
        match self {
            Flaw::Nothing | Flaw::OneAtMost => right,
            Flaw::UnfinishedNotCounted => right && !unfinished,
            Flaw::UntaggedLeftOut => right && !(unfinished && write.tag == 0),
            Flaw::TaggedLeftOut => right && !(unfinished && write.tag > 0),
            Flaw::BegunAfterCounted => right || unfinished,
            Flaw::BegunBeforeAlone => right && !(unfinished && write.begin > read.begin),
            Flaw::BegunDuringAlone => right && !(unfinished && write.begin < read.begin),
            Flaw::UnlistedLeftOut => right && write.tag > 0,
            Flaw::OwnPanelLeftOut => right && write.client != read.client,
            Flaw::BegunAtTheEnd => write.begin <= end && write.end.is_none_or(|ended| read.begin < ended),
            Flaw::UnfinishedBegunAtTheEnd => right || (unfinished && write.begin == end),
            Flaw::EndedAtTheBegin => write.begin < end && write.end.is_none_or(|ended| read.begin <= ended),
        }
    }
}

impl Wire for Flaw {
    fn write_link_frame(&self, tables: &Tables, client: u32, target: u32, bytes: &mut [u8]) -> Result<usize, Refusal> {
        let frame = frame_of(tables, client, target)?;
        bytes.get_mut(..frame.len()).ok_or(Refusal::NoRoom)?.copy_from_slice(&frame);
        Ok(frame.len())
    }

    fn list_register(&self, tables: &Tables, list: &mut [u32]) -> Result<usize, Refusal> {
        let lines = words::register::list_register(tables, list)?;
        let store = words::store_of(tables);
        for (row, line) in list.chunks_exact_mut(LINE_WORDS).zip(listing(&store.writes, &store.reads)) {
            if let Listed::Read { record, end, .. } = line {
                row[6] = self.overlap(&store.writes, record, end) as u32;
            }
        }
        Ok(lines)
    }
}

/// What a yard program with this flaw prints.
fn replayed(flaw: Flaw, schedule: &[u8]) -> Vec<u8> {
    let mut player = Player::default();
    lines(schedule).for_each(|line| drop(player.take_line(line)));
    let printed = String::from_utf8(model::replay(schedule)).expect("a text");
    let Some(Store { writes, reads, .. }) = player.store else { return printed.into_bytes() };
    let listed = listing(&writes, &reads);
    let mut texts: Vec<String> = printed.lines().map(String::from).collect();
    let answers = texts.len() - listed.len();
    for (text, line) in texts[answers..].iter_mut().zip(listed) {
        if let Listed::Read { record, end, .. } = line {
            let (front, _) = text.rsplit_once(' ').expect("an overlap");
            *text = format!("{front} {}", flaw.overlap(&writes, record, end));
        }
    }
    texts.iter().map(|text| format!("{text}\n")).collect::<String>().into_bytes()
}

fn arguments(subject: &str, cases: usize) -> Arguments {
    Arguments { subject: subject.into(), program: Vec::new(), cases, seed: 1 }
}

fn schedules(flaw: Flaw) -> Report {
    schedules_run::compare_by(&arguments("schedules", 200), &mut |schedule| Ok(replayed(flaw, schedule)))
}

#[test]
fn tables_show_what_is_wrong() {
    let wire = |flaw: Flaw| wire_run::compare_by(&arguments("wire", 10_000), &flaw);
    let passed = wire(Flaw::Nothing);
    assert!(passed.is_ok(), "{passed:?}");
    for flaw in FLAWS {
        let found = wire(flaw).expect_err("a difference");
        // The word is a READ's overlap.
        let word: usize =
            found.split_once("word ").and_then(|(_, rest)| rest.split_once(' ')).expect(&found).0.parse().expect(&found);
        assert_eq!(word % LINE_WORDS, 6, "{flaw:?}: {found}");
    }
}

#[test]
fn schedules_show_what_is_wrong() {
    for flaw in [Flaw::Nothing].into_iter().chain(FLAWS) {
        let hidden = flaw == Flaw::Nothing || IN_TABLES_ALONE.contains(&flaw);
        assert_eq!(schedules(flaw).is_ok(), hidden, "{flaw:?}");
    }
}

fn file(name: &str) -> Vec<u8> {
    std::fs::read(Path::new(env!("CARGO_MANIFEST_DIR")).join("../../../tests").join(name)).expect("a schedule")
}

/// The schedules of E7 that were written by hand, with what must be printed for them: each of the three shows them all.
#[test]
fn cards_show_what_is_wrong() {
    for method in ["b", "c"] {
        let (schedule, wanted) = ["txt", "out"].map(|end| file(&format!("schedules/unfinished_{method}.{end}"))).into();
        for flaw in [Flaw::Nothing].into_iter().chain(FLAWS) {
            let hidden = flaw == Flaw::Nothing || IN_TABLES_ALONE.contains(&flaw);
            assert_eq!(replayed(flaw, &schedule) == wanted, hidden, "{flaw:?}, {method}");
        }
    }
}

/// That of method A, which is played on saved tables: the overlaps of its register.
#[test]
fn the_card_on_saved_tables_shows_what_is_wrong() {
    let mut player = Player::default();
    for part in ["saved/unfinished-a.former.txt", "saved/unfinished-a.txt"] {
        let text = file(part);
        let steps = lines(&text).map(|line| step_of(line).expect("a step"));
        steps.for_each(|step| drop(player.take_mixed(&step)));
    }
    let Store { writes, reads, .. } = player.store.expect("opened");
    let wanted: Vec<usize> = String::from_utf8(file("saved/unfinished-a.out"))
        .expect("a text")
        .lines()
        .filter_map(|line| line.strip_prefix("R ")?.rsplit_once(' ')?.1.parse().ok())
        .collect();
    for flaw in [Flaw::Nothing].into_iter().chain(FLAWS) {
        let overlap = |line: Listed| match line {
            Listed::Read { record, end, .. } => Some(flaw.overlap(&writes, record, end)),
            Listed::Write(_) => None,
        };
        let found: Vec<usize> = listing(&writes, &reads).into_iter().filter_map(overlap).collect();
        let hidden = flaw == Flaw::Nothing || IN_TABLES_ALONE.contains(&flaw);
        assert_eq!(found == wanted, hidden, "{flaw:?}");
    }
}

/// Without a model, from steps and answers alone.
#[test]
fn demand_3_shows_what_is_wrong() {
    for flaw in [Flaw::Nothing].into_iter().chain(FLAWS) {
        let breaks = |seed: u64| {
            let schedule = schedules::schedule(seed, 1);
            demand3::check(&schedule, &replayed(flaw, &schedule)).is_err_and(|found| found.fits)
        };
        let hidden = flaw == Flaw::Nothing || IN_TABLES_ALONE.contains(&flaw);
        assert_eq!((0..100).any(breaks), !hidden, "{flaw:?}");
    }
}
