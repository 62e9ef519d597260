//! Tables to compare on: those of random runs, and damaged copies of them.

use crate::damage::{damage, repeat_key, step_on_a_link};
use model::Step;
use schedules::{Generator, Random};
use std::path::{Path, PathBuf};
use words::layout::{CLIENT_WORDS, LINKS_OF_CLIENT, LINK_WORDS, RECORD_WORDS};
use words::Tables;

/// Visits tables with a step: what the visitor is.
type Visit<'a> = dyn FnMut(&mut Tables, &Step) -> Result<(), String> + 'a;

/// Opens a store in tables that hold anything and lets it go on by its own steps. All of these tables, and damaged copies,
/// are visited, each with a step; the visitor takes the step on them.
pub fn visit_store(seed: u64, visit: &mut Visit) -> Result<(), String> {
    let mut generator = Generator::mixed(seed);
    let mut random = Random::new(!seed);
    let opening = generator.opening();
    let mut tables = fresh_tables(&opening, &mut random);
    visit(&mut tables, &generator.wrong_step())?;
    visit_next(&mut generator, &mut tables, &opening, visit)?;
    visit_run(&mut generator, tables, &mut random, visit)
}

/// The tables of tests/saved, which a version before E10 saved in the middle of runs of method 1, go on likewise: how many there are.
pub fn visit_saved(visit: &mut Visit) -> Result<usize, String> {
    let folder = Path::new(env!("CARGO_MANIFEST_DIR")).join("../../../tests/saved");
    let entries = std::fs::read_dir(&folder).map_err(|error| format!("{}: {error}", folder.display()))?;
    let mut files: Vec<PathBuf> = entries.filter_map(|entry| Some(entry.ok()?.path())).collect();
    files.retain(|file| file.extension().is_some_and(|end| end == "tables"));
    files.sort();
    if files.is_empty() {
        return Err(format!("there are no tables in {}", folder.display()));
    }
    for (seed, file) in (0..).zip(&files) {
        let text = std::fs::read(file).map_err(|error| format!("{}: {error}", file.display()))?;
        let tables = saved::read(&text).map_err(|saved::Refused(why)| format!("{}: {why}", file.display()))?;
        let (mut generator, mut random) = (Generator::mixed(seed), Random::new(!seed));
        generator.player.store = Some(words::store_of(&tables));
        visit_run(&mut generator, tables, &mut random, visit).map_err(|found| format!("{}: {found}", file.display()))?;
    }
    Ok(files.len())
}

/// A store goes on by its own steps, with damaged copies of its tables beside.
fn visit_run(generator: &mut Generator, mut tables: Tables, random: &mut Random, visit: &mut Visit) -> Result<(), String> {
    for _ in 0..random.within(1, 120) {
        let step = generator.likely_step();
        visit_next(generator, &mut tables, &step, visit)?;
        for _ in 0..3 {
            let mut odd = tables.clone();
            damage(&mut odd, random);
            let step = match random.below(10) {
                0 | 1 => generator.wrong_step(),
                2 => generator.opening(),
                3 | 4 => step_on_a_link(&odd, random),
                _ => generator.likely_step(),
            };
            visit(&mut odd, &step)?;
        }
        if random.chance(1, 4) {
            let mut odd = tables.clone();
            if let Some(step) = repeat_key(&mut odd, random) {
                visit(&mut odd, &step)?;
            }
        }
    }
    Ok(())
}

/// The next step of the store. The visitor refuses an opening by method 1 and a begin on such tables, and leaves all as it was: then the
/// store and its tables go on by the former rules.
fn visit_next(generator: &mut Generator, tables: &mut Tables, step: &Step, visit: &mut Visit) -> Result<(), String> {
    let only_formerly = generator.player.only_formerly(step);
    let _ = generator.take(step);
    visit(tables, step)?;
    if only_formerly {
        words::take_mixed(tables, step).map_err(|refusal| format!("the former rules answer {step:?} with {refusal}"))?;
    }
    Ok(())
}

/// Tables for an opening: just long enough or longer, full of one word.
pub fn fresh_tables(opening: &Step, random: &mut Random) -> Tables {
    let Step::Open { servers, clients, .. } = opening else {
        unreachable!("openings open");
    };
    let word = random.word();
    let mut tables = Tables::filled(*servers as usize, *clients as usize, word);
    if random.chance(1, 3) {
        for table in tables.all_mut() {
            table.resize(table.len() + random.below(60), random.word());
        }
    }
    tables
}

/// The tables for a report, without their long unused ends.
pub fn shown(tables: &Tables) -> String {
    let first = |table: &[u32], words: usize| format!("{:?}", &table[..table.len().min(words)]);
    format!(
        "lengths {:?} counts {} clients {} links {} log {} writes {} reads {}",
        tables.lengths(),
        first(&tables.counts, 23),
        first(&tables.clients, 4 * CLIENT_WORDS),
        first(&tables.links, 4 * LINKS_OF_CLIENT * LINK_WORDS),
        first(&tables.log, 40),
        first(&tables.writes, 10 * RECORD_WORDS),
        first(&tables.reads, 10 * RECORD_WORDS)
    )
}

/// The first word that differs from the model's.
pub fn differing(proved: &Tables, tables: &Tables) -> String {
    differing_from(proved, tables, "the model's")
}

/// The first word that differs from that of other tables, which are named so.
pub fn differing_from(tables: &Tables, other: &Tables, named: &str) -> String {
    const NAMES: [&str; 8] = ["counts", "clients", "links", "keys", "values", "log", "writes", "reads"];
    for (which, (one, other)) in tables.all().into_iter().zip(other.all()).enumerate() {
        if let Some(place) = (0..one.len()).find(|&place| one[place] != other[place]) {
            return format!("{}[{place}] is {}, {named} {}", NAMES[which], one[place], other[place]);
        }
    }
    "none".into()
}
