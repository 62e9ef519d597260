//! Loads through the proved crate: from openings to their ends, in parts and step by step; on tables of method 1, where nothing begins; with
//! tables at their limits and damaged ones.
//! The next step, the answer, every word of the lent list and of the tables are as the model has them.

use crate::arguments::Arguments;
use crate::damage::fill_to_limits;
use crate::stores::{differing, fresh_tables, shown, visit_saved, visit_store};
use crate::tally::Tally;
use crate::Report;
use ffi::LoadLibrary;
use model::load::advance;
use model::{Client, Link, State, Step, Store};
use schedules::{Generator, Random};
use words::layout::{LINKS_OF_CLIENT, LINK_WORDS, LOST, METHOD, NOTHING, REQUEST, SERVERS, STEP};
use words::load::{next_step, play_load, LoadEnd, LoadPick, NO_STEP, STEP_WORDS};
use words::Tables;

/// Of so many loads one goes to its end, which takes thousands of steps; for every so many loads a store's tables are looked at.
const LOADS_FOR_A_WHOLE: usize = 30;
const LOADS_FOR_A_STORE: usize = 60;
const LOADS_FOR_METHOD_1: usize = 6;

/// More than any load from an opening has.
const ENOUGH: u32 = 18_000;

/// In a run of so many loads each of these is to occur.
const MANY: usize = 1000;
const DUE_PICKS: [&str; 6] = ["a WRITE", "a READ", "a request", "a reply", "none", "no 2"];
const DUE_ENDS: [&str; 11] = [
    "method 1 to the end",
    "method 1 to what is lost",
    "method 2 to the end",
    "method 3 to the end",
    "at the wanted length",
    "at the last step number",
    "with requests that cannot be delivered",
    "with lost links alone",
    "with nothing left",
    "no 2",
    "no 12",
];

/// What was compared so far.
#[derive(Default)]
struct Counts {
    loads: usize,
    steps: usize,
    tables: usize,
    picks: Tally,
    ends: Tally,
}

/// What is compared with the model: the proved crate, or in tests what stands in for it.
pub trait Loads {
    fn advance(&self, seed: u32) -> u32;
    fn next_step(&self, tables: &Tables, seed: u32) -> LoadPick;
    fn play(&self, tables: &mut Tables, seed: u32, length: u32, list: &mut [u32]) -> LoadEnd;
}

impl Loads for LoadLibrary {
    fn advance(&self, seed: u32) -> u32 {
        LoadLibrary::advance(*self, seed)
    }

    fn next_step(&self, tables: &Tables, seed: u32) -> LoadPick {
        LoadLibrary::next_step(*self, tables, seed)
    }

    fn play(&self, tables: &mut Tables, seed: u32, length: u32, list: &mut [u32]) -> LoadEnd {
        LoadLibrary::play(*self, tables, seed, length, list)
    }
}

/// Plays `cases` loads from openings, and loads on the tables of random runs and on damaged copies of these.
pub fn compare(arguments: &Arguments) -> Report {
    let library = LoadLibrary::linked().ok_or("libworkload_exports.a is not linked: run tests/rust/build-store")?;
    compare_by(arguments, &library)
}

/// The same of any subject.
pub fn compare_by(arguments: &Arguments, library: &dyn Loads) -> Report {
    let mut counts = Counts::default();
    for case in 0..arguments.cases {
        let seed = arguments.seed_of(case);
        one_load(library, seed, case, &mut counts).map_err(|difference| format!("load {seed}: {difference}"))?;
        if case.is_multiple_of(LOADS_FOR_METHOD_1) {
            load_of_method_1(library, seed, &mut counts).map_err(|difference| format!("method 1, {seed}: {difference}"))?;
        }
        if case.is_multiple_of(LOADS_FOR_A_STORE) {
            one_store(library, seed, &mut counts).map_err(|difference| format!("store {seed}: {difference}"))?;
        }
    }
    let mut random = Random::new(arguments.seed);
    let saved = visit_saved(&mut |tables, step| short_load(library, tables, step, &mut random, &mut counts))?;
    let Counts { loads, steps, tables, picks, ends } = counts;
    if loads == 0 || steps == 0 || tables == 0 {
        return Err(format!("nothing was compared: {loads} loads, {steps} steps, {tables} tables"));
    }
    if arguments.cases >= MANY {
        picks.require(&DUE_PICKS)?;
        ends.require(&DUE_ENDS)?;
    }
    Ok(format!("{loads} loads from openings, {steps} steps; {tables} other tables, of {saved} saved ones too; next steps: {picks}; ends: {ends}"))
}

/// A load from an opening: now and then to its end, else in one of three ways for some steps.
fn one_load(library: &dyn Loads, seed: u64, case: usize, counts: &mut Counts) -> Result<(), String> {
    let mut load = Load::opened(library, seed, counts);
    load.counts.loads += 1;
    if case.is_multiple_of(LOADS_FOR_A_WHOLE) {
        return load.whole();
    }
    match load.random.below(3) {
        0 => load.in_parts(),
        1 => load.step_by_step(),
        _ => load.at_limits(),
    }
}

/// A load on tables of method 1 in the middle of a run, as a version that opened it saved them, to its end.
fn load_of_method_1(library: &dyn Loads, seed: u64, counts: &mut Counts) -> Result<(), String> {
    let mut random = Random::new(seed.rotate_left(16));
    let mut generator = Generator::of_method_1(seed);
    let opening = generator.opening();
    let mut tables = fresh_tables(&opening, &mut random);
    let mut step = opening;
    for _ in 0..random.within(1, 120) {
        let outcome = generator.take(&step);
        assert_eq!(words::take_mixed(&mut tables, &step), outcome, "the former rules on a store and on words");
        step = generator.likely_step();
    }
    let (store, seed) = (generator.player.store.expect("opened"), random.word());
    counts.tables += 1;
    Load { library, random, tables, seed, counts }.deliveries(&store)
}

/// How many deliveries are left where nothing begins: two for a request, one for a reply, and two more for the entry of a WRITE that hears of
/// all its stations.
fn deliveries_left(store: &Store) -> u32 {
    let of_link = |link: &Link| match link {
        Link::Request(_) => 2,
        Link::Reply(_) => 1,
        Link::Nothing | Link::Lost => 0,
    };
    let of_client = |client: &Client| {
        let enters = client.state == State::WritingSetpoints && !client.links.contains(&Link::Lost);
        client.links.iter().map(of_link).sum::<u32>() + if enters { 2 } else { 0 }
    };
    store.clients.iter().map(of_client).sum()
}

/// A short load on each of the tables of a random run, and on damaged copies of them.
fn one_store(library: &dyn Loads, seed: u64, counts: &mut Counts) -> Result<(), String> {
    let mut random = Random::new(seed.rotate_left(32));
    visit_store(seed, &mut |tables, step| short_load(library, tables, step, &mut random, counts))
}

/// A load on tables, which then go on by the model.
fn short_load(
    library: &dyn Loads,
    tables: &mut Tables,
    step: &Step,
    random: &mut Random,
    counts: &mut Counts,
) -> Result<(), String> {
    let seed = random.word();
    let mut load = Load { library, random: random.clone(), tables: tables.clone(), seed, counts };
    load.counts.tables += 1;
    load.pick()?;
    load.part()?;
    *random = load.random;
    let _ = words::take(tables, step);
    Ok(())
}

/// A load under way: the tables as the model's load left them, and the seed that is next.
struct Load<'a> {
    library: &'a dyn Loads,
    random: Random,
    tables: Tables,
    seed: u32,
    counts: &'a mut Counts,
}

impl Load<'_> {
    /// The tables of an opening, and a seed.
    fn opened<'a>(library: &'a dyn Loads, seed: u64, counts: &'a mut Counts) -> Load<'a> {
        let mut random = Random::new(!seed);
        let opening = Generator::new(seed).opening();
        let mut tables = fresh_tables(&opening, &mut random);
        words::take(&mut tables, &opening).expect("a good opening");
        let seed = random.word();
        Load { library, random, tables, seed, counts }
    }

    /// To the end, in one call or in long parts: 255 WRITEs and 255 READs of all k servers, of 2k + 3 steps each.
    fn whole(&mut self) -> Result<(), String> {
        let (method, servers) = (self.tables.counts[METHOD], self.tables.counts[SERVERS]);
        let part = self.random.pick(&[ENOUGH, ENOUGH, 3000, 850]);
        let mut steps = 0;
        loop {
            let end = self.play(part, STEP_WORDS * part as usize)?;
            steps += end.steps;
            if end.steps < part {
                break;
            }
        }
        let due = 510 * (2 * servers + 3);
        if steps != due {
            return Err(format!("{steps} steps to the end, and {due} are due"));
        }
        self.counts.ends.count(&format!("method {method} to the end"));
        self.pick()
    }

    /// Under method 1 nothing begins: what is on the links is delivered, in one call or in parts, and then no step is acceptable.
    fn deliveries(&mut self, store: &Store) -> Result<(), String> {
        let (due, mut steps) = (deliveries_left(store), 0);
        let part = self.random.pick(&[600, 600, 7, 1]);
        loop {
            self.pick()?;
            let end = self.play(part, STEP_WORDS * part as usize)?;
            steps += end.steps;
            if end.steps < part {
                break;
            }
        }
        if steps != due {
            return Err(format!("{steps} steps to the end, and {due} are due; {}", shown(&self.tables)));
        }
        let lost = store.clients.iter().any(|client| client.links.contains(&Link::Lost));
        self.counts.ends.count(if lost { "method 1 to what is lost" } else { "method 1 to the end" });
        Ok(())
    }

    fn in_parts(&mut self) -> Result<(), String> {
        for _ in 0..self.random.within(2, 6) {
            self.part()?;
        }
        self.pick()
    }

    fn step_by_step(&mut self) -> Result<(), String> {
        for _ in 0..self.random.within(1, 60) {
            self.pick()?;
            self.play(1, STEP_WORDS)?;
        }
        Ok(())
    }

    /// A few steps, and then to the end, which is not far: most begins are used up, and places or step numbers may be.
    fn at_limits(&mut self) -> Result<(), String> {
        let few = self.random.below(60) as u32;
        self.play(few, STEP_WORDS * few as usize)?;
        if self.random.chance(1, 3) {
            self.lose_some();
        }
        fill_to_limits(&mut self.tables, &mut self.random);
        self.pick()?;
        self.play(400, STEP_WORDS * 400)?;
        self.pick()
    }

    /// Some of what is on the links is lost: a load has no step that loses or sends again, and so these stay.
    fn lose_some(&mut self) {
        for link in 0..self.tables.links.len() / LINK_WORDS {
            if self.tables.links[LINK_WORDS * link] != NOTHING && self.random.chance(1, 3) {
                let (client, target) = ((link / LINKS_OF_CLIENT) as u32, (link % LINKS_OF_CLIENT) as u32);
                // Links of tables that are longer than the press needs are none of it.
                let _ = words::take(&mut self.tables, &Step::Lose { client, target });
            }
        }
    }

    /// Some steps, or none; the list is long enough or longer, and now and then too short.
    fn part(&mut self) -> Result<(), String> {
        let random = &mut self.random;
        let most = random.pick(&[1, 2, 10, 60]);
        let length = random.below(most + 1) as u32;
        let needed = STEP_WORDS * length as usize;
        let (length, room) = match random.below(8) {
            0 => (length, needed.saturating_sub(random.within(1, 5))),
            // Four times these have no room in 32 bits.
            1 => (random.pick(&[1 << 30, (1 << 30) + 1, 1 << 31, u32::MAX]), needed),
            2 => (length, needed + random.within(1, 9)),
            _ => (length, needed),
        };
        self.play(length, room).map(drop)
    }

    /// The next step, and the number behind the seed.
    fn pick(&mut self) -> Result<(), String> {
        let seed = self.seed;
        let (found, expected) = (self.library.advance(seed), advance(seed));
        if found != expected {
            return Err(format!("behind {seed} comes {found}, and by the model {expected}"));
        }
        let before = self.tables.clone();
        let (found, expected) = (self.library.next_step(&self.tables, seed), next_step(&self.tables, seed));
        if found != expected {
            return Err(format!("seed {seed} picks {found:?}, and by the model {expected:?}; {}", shown(&self.tables)));
        }
        assert_eq!(before, self.tables);
        self.counts.picks.count(match (expected.answer, expected.kind) {
            (0, 0) => "a WRITE",
            (0, 1) => "a READ",
            (0, 2) => "a request",
            (0, _) => "a reply",
            (NO_STEP, _) => "none",
            _ => "no 2",
        });
        Ok(())
    }

    /// A load of a wanted length, with a list of so many words. The tables and the seed go on as the model left them.
    fn play(&mut self, length: u32, room: usize) -> Result<LoadEnd, String> {
        let seed = self.seed;
        let before = self.tables.clone();
        let mut proved = self.tables.clone();
        let mut list = vec![self.random.word(); room];
        let mut proved_list = list.clone();
        let expected = play_load(&mut self.tables, seed, length, &mut list);
        let found = self.library.play(&mut proved, seed, length, &mut proved_list);
        let asked = || format!("a load of {length} steps from seed {seed}, in a list of {room} words,");
        if let Some(place) = (0..room).find(|&place| list[place] != proved_list[place]) {
            let step = place / STEP_WORDS;
            let row = STEP_WORDS * step..room.min(STEP_WORDS * (step + 1));
            let (found, expected) = (&proved_list[row.clone()], &list[row]);
            return Err(format!("{} has {found:?} as step {step}, and by the model {expected:?}; {}", asked(), shown(&before)));
        }
        if found != expected {
            return Err(format!("{} answers {found:?}, and by the model {expected:?}; {}", asked(), shown(&before)));
        }
        if proved != self.tables {
            let difference = differing(&proved, &self.tables);
            return Err(format!("{} leaves other words: {difference}; before: {}", asked(), shown(&before)));
        }
        self.seed = expected.seed;
        self.counts.steps += expected.steps as usize;
        self.counts.ends.count(self.end_of(&expected, length));
        Ok(expected)
    }

    /// What a load ended by.
    fn end_of(&self, end: &LoadEnd, length: u32) -> &'static str {
        let links = || self.tables.links.chunks_exact(LINK_WORDS);
        match end.answer {
            2 => "no 2",
            12 => "no 12",
            _ if end.steps == length => "at the wanted length",
            _ if self.tables.counts[STEP] == u32::MAX => "at the last step number",
            _ if links().any(|link| link[0] == REQUEST) => "with requests that cannot be delivered",
            _ if links().any(|link| link[0] == LOST) => "with lost links alone",
            _ => "with nothing left",
        }
    }
}
