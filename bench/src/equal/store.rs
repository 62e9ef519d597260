//! Steps and the check of tables, on random runs with losses, on damaged tables, and on tables of method 1.

use super::damage::{damage, repeat_key, step_on_a_link};
use super::{reached, Tally};
use crate::calls;
use model::Step;
use schedules::{Generator, Random};
use setpoint_store::{Crossing, StoreLibrary};
use words::layout::METHOD;
use words::Tables;

/// So many steps of runs are taken, and more on copies of their tables.
const STEPS: usize = 300_000;

#[rustfmt::skip]
const DUE: [&str; 16] = [
    "ok", "wait", "next", "write", "read",
    "no 1", "no 2", "no 3", "no 5", "no 6", "no 7", "no 8", "no 9", "no 14", "no 15", "not sound",
];
/// On tables of method 1, where nothing begins any more.
const DUE_OF_METHOD_1: [&str; 8] = ["ok", "wait", "next", "write", "read", "no 4", "no 14", "no 15"];

/// The same tables on both sides.
struct Both {
    library: StoreLibrary,
    proved: Tables,
    fast: Tables,
}

pub fn compare(library: StoreLibrary) {
    let (mut answers, mut of_method_1, mut steps, mut seed) = (Tally::default(), Tally::default(), 0, 0);
    while steps < STEPS {
        seed += 1;
        steps += one_run(library, seed, &mut answers, &mut of_method_1);
    }
    reached(&format!("{steps} steps of {seed} random runs, and on damaged tables"), &answers, &DUE);
    reached("on tables of method 1", &of_method_1, &DUE_OF_METHOD_1);
}

/// Tables for an opening, just long enough or longer, which hold anything.
pub fn fresh_tables(opening: &Step, random: &mut Random) -> Tables {
    let Step::Open { servers, clients, .. } = opening else {
        unreachable!("openings open");
    };
    let mut tables = Tables::filled(*servers as usize, *clients as usize, random.word());
    if random.chance(1, 3) {
        for table in tables.all_mut() {
            table.resize(table.len() + random.below(60), random.word());
        }
    }
    tables
}

/// The steps of a run: how many there were.
fn one_run(library: StoreLibrary, seed: u64, answers: &mut Tally, of_method_1: &mut Tally) -> usize {
    let (mut generator, mut random) = (Generator::new(seed), Random::new(!seed));
    let opening = generator.opening();
    let mut run = Both::of(library, fresh_tables(&opening, &mut random));
    run.step(&opening, answers);
    let _ = generator.player.take(&opening);
    let length = if random.chance(1, 12) { 4000 } else { random.within(1, 300) };
    for _ in 0..length {
        let step = if random.chance(1, 6) { generator.wrong_step() } else { generator.likely_step() };
        if matches!(step, Step::Open { .. }) {
            // The run goes on as it was opened.
            run.copy().step(&step, answers);
        } else {
            let _ = generator.player.take(&step);
            run.step(&step, answers);
        }
        if random.chance(1, 2) {
            on_damaged(&run, &mut generator, &mut random, answers);
        }
        if random.chance(1, 12) {
            go_on_as_method_1(&run, &mut generator, &mut random, of_method_1);
        }
    }
    length
}

fn on_damaged(run: &Both, generator: &mut Generator, random: &mut Random, answers: &mut Tally) {
    let mut odd = run.proved.clone();
    let repeated = if random.chance(1, 8) { repeat_key(&mut odd, random) } else { None };
    let step = repeated.unwrap_or_else(|| {
        damage(&mut odd, random);
        match random.below(8) {
            0 => generator.wrong_step(),
            1 => opening_by_any_method(generator, random),
            2..=4 => step_on_a_link(&odd, random),
            _ => generator.likely_step(),
        }
    });
    Both::of(run.library, odd).step(&step, answers);
}

/// An opening, now and then by method 1, which opens nothing any more.
fn opening_by_any_method(generator: &mut Generator, random: &mut Random) -> Step {
    let mut opening = generator.opening();
    if let Step::Open { method, .. } = &mut opening {
        *method = random.pick(&[1, *method, *method]);
    }
    opening
}

/// Where the tables are such as method 1 could have left them, they go on as tables of method 1.
fn go_on_as_method_1(run: &Both, generator: &mut Generator, random: &mut Random, answers: &mut Tally) {
    let mut tables = run.proved.clone();
    tables.counts[METHOD] = 1;
    let mut saved = Both::of(run.library, tables);
    if !saved.sound() {
        return;
    }
    for _ in 0..random.within(1, 40) {
        let step = if random.chance(1, 9) { generator.wrong_step() } else { step_on_a_link(&saved.proved, random) };
        if !matches!(step, Step::Open { .. }) {
            saved.step(&step, answers);
        }
    }
}

impl Both {
    fn of(library: StoreLibrary, tables: Tables) -> Both {
        Both { library, fast: tables.clone(), proved: tables }
    }

    fn copy(&self) -> Both {
        Both::of(self.library, self.proved.clone())
    }

    /// Whether the tables are sound, which both sides must find alike.
    fn sound(&self) -> bool {
        let sound = self.library.sound(self.proved.all().map(Vec::as_slice));
        assert_eq!(calls::sound(&self.fast), sound, "the check of {:?}", self.proved);
        sound
    }

    /// One step on both sides; on tables that are not sound only an opening, and the check of all others.
    fn step(&mut self, step: &Step, answers: &mut Tally) {
        let sound = self.sound();
        if !sound && !matches!(step, Step::Open { .. }) {
            assert_eq!(calls::number_checked(&mut self.fast, step), 2);
            return answers.count("not sound");
        }
        let (expected, found) = unsafe { (proved(self.library, &mut self.proved, step), calls::take(&mut self.fast, step)) };
        assert_eq!(found, expected, "{step:?} on {:?}", self.proved);
        assert!(self.fast == self.proved, "{step:?} leaves {} on {:?}", differing(&self.fast, &self.proved), self.proved);
        answers.count(&name(expected.number));
    }
}

/// The proved step that checks no tables, with all that crosses.
///
/// # Safety
/// But for an opening, the tables are sound.
unsafe fn proved(library: StoreLibrary, tables: &mut Tables, step: &Step) -> Crossing {
    let plain = |number: u32| Crossing { number: u64::from(number), setpoints: [0; 16], tags: [0; 16], badges: [0; 16] };
    let lent = tables.all_mut().map(Vec::as_mut_slice);
    match step {
        Step::Open { method, servers, clients, setpoints } => plain(library.open(lent, *method, *servers, *clients, setpoints)),
        Step::BeginWrite { client, mask, badge, setpoints } => {
            plain(library.begin_write_unchecked(lent, *client, *mask, *badge, setpoints))
        }
        Step::BeginRead { client, mask } => plain(library.begin_read_unchecked(lent, *client, *mask)),
        Step::DeliverRequest { client, target } => plain(library.deliver_request_unchecked(lent, *client, *target)),
        Step::DeliverReply { client, target } => library.deliver_reply_unchecked(lent, *client, *target),
        Step::Lose { client, target } => plain(library.lose_unchecked(lent, *client, *target)),
        Step::Resend { client, target } => plain(library.resend_unchecked(lent, *client, *target)),
    }
}

/// An answer by its word, or a refusal by its number.
fn name(number: u64) -> String {
    match (number >> 32, number as u32) {
        (0, 0) => "ok".into(),
        (0, refusal) => format!("no {refusal}"),
        (word, _) => ["wait", "next", "write", "read"][word as usize - 1].into(),
    }
}

/// The first word that differs: the table in its order, the place, and both words.
fn differing(fast: &Tables, proved: &Tables) -> String {
    for (table, (one, other)) in fast.all().into_iter().zip(proved.all()).enumerate() {
        if let Some(place) = (0..one.len()).find(|&place| one[place] != other[place]) {
            return format!("table {table}, word {place}: {} and not {}", one[place], other[place]);
        }
    }
    "none".into()
}
