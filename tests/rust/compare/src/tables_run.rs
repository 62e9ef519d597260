//! Tables through the proved check and the proved public steps: the answers and every word as the model has them.

use crate::arguments::Arguments;
use crate::losses;
use crate::stores::{differing, shown, visit_saved, visit_store};
use crate::tally::Tally;
use crate::Report;
use ffi::StoreLibrary;
use model::answer::word;
use model::{Answer, Outcome, Refusal, Step, Store};
use words::layout::{ASKED, BADGES_BELOW, CLIENTS, CLIENT_WORDS, LINK_WORDS, LOST, NOTHING, STATE, WRITE_BADGE};
use words::Tables;

/// In a run of so many tables each of the answers below is to occur.
const MANY: usize = 100_000;
#[rustfmt::skip]
const DUE: [&str; 16] = [
    "ok", "wait", "next", "write", "read",
    "no 1", "no 2", "no 3", "no 4", "no 5", "no 6", "no 7", "no 8", "no 9", "no 14", "no 15",
];
/// What E10 refuses, by what the former rules answered to it: openings by 1, begins by 4, and one ahead of that by 3.
const RETIRED: [&str; 9] = [
    "no 1 for an opening that was ok",
    "no 1 for an opening that was no 1",
    "no 4 for a begin that was ok",
    "no 4 for a begin that was no 4",
    "no 4 for a begin that was no 5",
    "no 4 for a begin that was no 6",
    "no 4 for a begin that was no 7",
    "no 3 for a begin that was no 3",
    "no 2 for a begin that was no 2",
];
/// What alone makes tables not sound: each is to occur.
const UNSOUND: [&str; 4] = ["a lost link", "a kind beyond 3", "a kept badge", "a kept key"];

/// What deliveries, losses and what is sent again answer on such tables, and an opening by another method.
#[rustfmt::skip]
const GOING_ON: [&str; 14] = [
    "O ok",
    "> ok", "> no 3", "> no 8", "> no 9",
    "< wait", "< next", "< write", "< read", "< no 9",
    "! ok", "! no 14", "+ ok", "+ no 15",
];

/// What was compared so far.
#[derive(Default)]
struct Counts {
    tables: usize,
    sound: usize,
    answers: Tally,
    losses: Tally,
    unsound: Tally,
    retired: Tally,
    /// Steps on sound tables of method 1 that are no begin and no opening by method 1, by their answers.
    going_on: Tally,
}

/// What is compared with the model: the proved crates, or in tests what stands in for them.
pub trait Subject {
    fn sound(&self, tables: &Tables) -> bool;
    fn take(&self, tables: &mut Tables, step: &Step) -> Outcome;
    /// By the steps that check no tables.
    fn take_sound(&self, tables: &mut Tables, step: &Step) -> Outcome;
}

impl Subject for StoreLibrary {
    fn sound(&self, tables: &Tables) -> bool {
        StoreLibrary::sound(*self, tables)
    }

    fn take(&self, tables: &mut Tables, step: &Step) -> Outcome {
        StoreLibrary::take(*self, tables, step)
    }

    fn take_sound(&self, tables: &mut Tables, step: &Step) -> Outcome {
        StoreLibrary::take_sound(*self, tables, step)
    }
}

/// Checks `cases` tables, each with a step; between them an opened store goes on by its own steps.
pub fn compare(arguments: &Arguments) -> Report {
    let library = StoreLibrary::linked().ok_or("libstore_exports.a is not linked: run tests/rust/build-store")?;
    compare_by(arguments, &library)
}

/// The same of any subject.
pub fn compare_by(arguments: &Arguments, library: &dyn Subject) -> Report {
    let mut counts = Counts::default();
    let mut stores = 0;
    while counts.tables < arguments.cases {
        let seed = arguments.seed_of(stores);
        let visited = visit_store(seed, &mut |tables, step| compare_step(library, tables, step, &mut counts));
        visited.map_err(|difference| format!("store {seed}: {difference}"))?;
        stores += 1;
    }
    let saved = visit_saved(&mut |tables, step| compare_step(library, tables, step, &mut counts))?;
    if arguments.cases >= MANY {
        counts.answers.require(&DUE)?;
        [&losses::DUE[..], &losses::REFUSED, &losses::TWICE].iter().try_for_each(|due| counts.losses.require(due))?;
        counts.unsound.require(&UNSOUND)?;
        counts.retired.require(&RETIRED)?;
        counts.going_on.require(&GOING_ON)?;
    }
    let Counts { tables, sound, answers, losses, unsound, retired, going_on } = counts;
    let of_method_1 = format!("of method 1: {retired}, and {going_on}");
    Ok(format!(
        "{tables} tables, {sound} of them sound, {stores} stores and {saved} saved; answers: {answers}; {losses}; not sound: {unsound}; {of_method_1}"
    ))
}

/// Soundness before, one step on both, and all words after. The tables go on as the model left them.
fn compare_step(library: &dyn Subject, tables: &mut Tables, step: &Step, counts: &mut Counts) -> Result<(), String> {
    let sound = words::sound(tables);
    if library.sound(tables) != sound {
        return Err(format!("the model finds sound: {sound}; {}", shown(tables)));
    }
    let mut before = tables.clone();
    let mut proved = tables.clone();
    let expected = words::take(tables, step);
    let found = library.take(&mut proved, step);
    same(&before, step, (&expected, tables), (&found, &proved))?;
    let mut proved = before.clone();
    let found = library.take_sound(&mut proved, step);
    same(&before, step, (&expected, tables), (&found, &proved))?;
    counts.tables += 1;
    counts.sound += usize::from(sound);
    counts.answers.count(&word(&expected));
    count_method_1(&before, sound, step, &expected, counts);
    if sound {
        losses::names(&words::store_of(&before), step, &expected).iter().for_each(|name| counts.losses.count(name));
    } else if let Some(name) = of_losses(&mut before) {
        counts.unsound.count(name);
    }
    Ok(())
}

/// A step on tables of method 1, or an opening by it.
fn count_method_1(before: &Tables, sound: bool, step: &Step, answer: &Outcome, counts: &mut Counts) {
    if let Step::Open { method: 1, servers, clients, setpoints } = step {
        let former = Store::open_mixed(1, *servers, *clients, setpoints).map(|_| Answer::Ok);
        counts.retired.count(&format!("{} for an opening that was {}", word(answer), word(&former)));
        return;
    }
    if before.counts.first() != Some(&1) {
        return;
    }
    match step {
        Step::BeginWrite { .. } | Step::BeginRead { .. } => {
            let former =
                if sound { words::store_of(before).former_answer(step).expect("a begin") } else { Err(Refusal::Unsound) };
            counts.retired.count(&format!("{} for a begin that was {}", word(answer), word(&former)));
        }
        _ if sound => {
            let line = schedules::line_of(step);
            counts.going_on.count(&format!("{} {}", line[0] as char, word(answer)));
        }
        _ => {}
    }
}

/// Which of what losses need makes tables not sound, where nothing else does: with one word mended they are.
fn of_losses(tables: &mut Tables) -> Option<&'static str> {
    let [in_clients, in_links] = [1, 2];
    let clients = tables.counts.get(CLIENTS).map_or(0, |&clients| clients.min(16));
    let mut mended = Vec::new();
    for (place, &kind) in tables.links.iter().enumerate().step_by(LINK_WORDS).filter(|(_, &kind)| kind >= LOST) {
        let name = if kind == LOST { UNSOUND[0] } else { UNSOUND[1] };
        // A panel that waits has a link that is not empty: there a kind that is none is mended to a lost link.
        mended.extend([(in_links, place, NOTHING, name), (in_links, place, LOST, name)]);
    }
    for (client, row) in tables.clients.chunks_exact(CLIENT_WORDS).enumerate() {
        let place = CLIENT_WORDS * client;
        if row[WRITE_BADGE] >= BADGES_BELOW {
            mended.push((in_clients, place + WRITE_BADGE, 0, UNSOUND[2]));
        }
        let no_key = |word: u32| word != 0 && (!(256..65_536).contains(&word) || word % 256 >= clients);
        let asked = (ASKED..CLIENT_WORDS).filter(|&word| row[STATE] == 4 && no_key(row[word]));
        mended.extend(asked.map(|word| (in_clients, place + word, 0, UNSOUND[3])));
    }
    for (table, place, word, name) in mended {
        let broken = std::mem::replace(&mut tables.all_mut()[table][place], word);
        let sound = words::sound(tables);
        tables.all_mut()[table][place] = broken;
        if sound {
            return Some(name);
        }
    }
    None
}

/// The model's answer and words are the library's.
fn same(before: &Tables, step: &Step, model: (&Outcome, &Tables), library: (&Outcome, &Tables)) -> Result<(), String> {
    let (expected, tables) = model;
    let (found, proved) = library;
    if found != expected {
        return Err(format!("{step:?} answers {found:?}, the model {expected:?}; {}", shown(before)));
    }
    if proved != tables {
        return Err(format!(
            "{step:?} ({expected:?}) leaves other words: {}; before: {}",
            differing(proved, tables),
            shown(before)
        ));
    }
    Ok(())
}
