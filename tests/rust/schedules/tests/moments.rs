//! "In a run from an opening the count is of all WRITEs in progress at some moment of the READ": the moments are the stores that the opening
//! and each step left, and what is in progress there is told by what the panels do. No begin and no end is compared.

use model::history::{listing, Listed};
use model::{line, Player, State, Step, Store};
use schedules::{schedule, Generator};
use std::collections::{BTreeMap, BTreeSet};

/// The records of the WRITEs, and of the READs, that a panel is at.
fn in_progress(store: &Store) -> (BTreeSet<usize>, BTreeSet<usize>) {
    let of = |states: &[State]| {
        let at_work = store.clients.iter().filter(|client| states.contains(&client.state));
        at_work.map(|client| client.record).collect()
    };
    let writes = of(&[State::WritingSetpoints, State::WaitingForTag]);
    (writes, of(&[State::AskingCoordinator, State::AskingSetpoints, State::AskingAll]))
}

/// The overlap that the register gives each READ, by its record's place.
fn listed(store: &Store) -> BTreeMap<usize, usize> {
    let place = |begin: u32| store.reads.iter().position(|read| read.begin == begin).expect("its record");
    let of_read = |line: Listed| match line {
        Listed::Read { record, overlap, .. } => Some((place(record.begin), overlap)),
        Listed::Write(_) => None,
    };
    listing(&store.writes, &store.reads).into_iter().filter_map(of_read).collect()
}

/// What was seen of a run so far: of each READ the WRITEs in progress at some moment of it, and the overlap that it had at its end.
#[derive(Default)]
struct Seen {
    beside: BTreeMap<usize, BTreeSet<usize>>,
    ended: BTreeMap<usize, usize>,
}

impl Seen {
    /// The store that an opening or a step left.
    fn moment(&mut self, store: &Store, run: &str) {
        let (writes, reading) = in_progress(store);
        for read in reading {
            self.beside.entry(read).or_default().extend(&writes);
        }
        // As soon as a READ has ended its overlap is what it stays, whether the WRITEs beside it end or not.
        for (read, overlap) in listed(store) {
            assert_eq!(overlap, self.beside[&read].len(), "{run}, step {}, READ {read}", store.step);
            assert_eq!(overlap, *self.ended.entry(read).or_insert(overlap));
        }
    }
}

/// How many READs were listed, and how many of them had WRITEs beside them that were unfinished at the end, and such without a tag.
#[derive(Default)]
struct Reached {
    reads: usize,
    beside_unfinished: usize,
    beside_untagged: usize,
}

impl Reached {
    fn add(&mut self, store: &Store, seen: &Seen) {
        for read in listed(store).into_keys() {
            let beside = seen.beside[&read].iter().map(|&write| &store.writes[write]);
            let unfinished: Vec<_> = beside.filter(|write| write.end.is_none()).collect();
            self.reads += 1;
            self.beside_unfinished += usize::from(!unfinished.is_empty());
            self.beside_untagged += usize::from(unfinished.iter().any(|write| write.tag == 0));
        }
    }

    fn require(&self) {
        let Reached { reads, beside_unfinished, beside_untagged } = self;
        let enough = *reads > 1000 && *beside_unfinished > 100 && *beside_untagged > 50;
        assert!(enough, "{reads}, {beside_unfinished}, {beside_untagged}");
    }
}

#[test]
fn an_overlap_counts_the_writes_in_progress_at_some_moment() {
    let mut reached = Reached::default();
    for seed in 0..200 {
        let (mut player, mut seen) = (Player::default(), Seen::default());
        for line in line::lines(&schedule(seed, 2)) {
            let accepted = player.take_line(line).is_ok();
            let Some(store) = &player.store else { continue };
            if accepted && matches!(line::step_of(line), Some(Step::Open { .. })) {
                seen = Seen::default();
            }
            seen.moment(store, &format!("seed {seed}"));
        }
        reached.add(&player.store.expect("opened"), &seen);
    }
    reached.require();
}

/// The same of runs of method A that the former rules opened and began.
#[test]
fn and_so_it_does_in_runs_of_method_a() {
    let mut reached = Reached::default();
    for seed in 0..200 {
        let (mut generator, mut seen) = (Generator::of_method_1(seed), Seen::default());
        let mut step = generator.opening();
        for _ in 0..150 {
            // Where it is refused the store stays as it was.
            let _ = generator.take(&step);
            seen.moment(generator.player.store.as_ref().expect("opened"), &format!("seed {seed}"));
            step = generator.likely_step();
        }
        reached.add(&generator.player.store.expect("opened"), &seen);
    }
    reached.require();
}
