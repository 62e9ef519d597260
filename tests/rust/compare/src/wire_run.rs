//! Frames of links and the register's listing, from any tables: answers, bytes and rows as the model has them.

use crate::arguments::Arguments;
use crate::damage::change_record_step;
use crate::stores::{shown, visit_saved, visit_store};
use crate::tally::Tally;
use crate::Report;
use ffi::WireLibrary;
use frames::link::message_on;
use model::{Refusal, Step, WriteRecord, COORDINATOR};
use schedules::Random;
use std::cmp::Ordering;
use std::collections::BTreeSet;
use words::layout::{CLIENTS, LINKS_OF_CLIENT, LINK_WORDS, LOST, NOTHING};
use words::register::{list_register, LINE_WORDS};
use words::Tables;

/// In a run of so many tables each of the answers below is to occur.
const MANY: usize = 100_000;
#[rustfmt::skip]
const DUE_FRAMES: [&str; 17] = [
    "kind 1", "kind 2", "kind 3", "kind 4", "kind 5", "kind 6", "kind 7", "kind 8", "kind 9", "kind 10", "kind 11", "kind 12",
    "no 2", "no 3", "no 9", "no 9 of a lost link", "no 12",
];
const DUE_LISTS: [&str; 6] = [
    "listed",
    "no 2",
    "no 12",
    "with READs of one tag that end in another order",
    "with READs that tie",
    "with badges above 255",
];
/// Where unfinished WRITEs of listed registers are beside a finished READ, those with a tag and those without.
const DUE_UNFINISHED: [[&str; 4]; 2] = [
    ["a tag, begun before it", "a tag, begun during it", "a tag, begun at its end", "a tag, begun after it"],
    ["no tag, begun before it", "no tag, begun during it", "no tag, begun at its end", "no tag, begun after it"],
];
/// And finished ones: those that overlap it, and those that would by `≤` for `<`.
const DUE_FINISHED: [&str; 3] = ["ended after its begin", "ended at its begin", "ended after its begin, begun at its end"];

/// A READ's kind, and words of a row of the register.
const READ: u32 = 1;
const TAG: usize = 1;
const BEGIN: usize = 4;
const END: usize = 5;
const BADGE: usize = 7;

/// Room for the longest frame, of 256 versions, and for the longest register.
const LONGEST_FRAME: usize = 1923;
const MOST_LINES: usize = 510;

/// What was compared so far.
#[derive(Default)]
struct Counts {
    tables: usize,
    sound: usize,
    frames: Tally,
    lists: Tally,
    pairs: Tally,
}

/// What is compared with the model: the proved crates, or in tests what stands in for them.
pub trait Wire {
    fn write_link_frame(&self, tables: &Tables, client: u32, target: u32, bytes: &mut [u8]) -> Result<usize, Refusal>;
    fn list_register(&self, tables: &Tables, list: &mut [u32]) -> Result<usize, Refusal>;
}

impl Wire for WireLibrary {
    fn write_link_frame(&self, tables: &Tables, client: u32, target: u32, bytes: &mut [u8]) -> Result<usize, Refusal> {
        WireLibrary::write_link_frame(*self, tables, client, target, bytes)
    }

    fn list_register(&self, tables: &Tables, list: &mut [u32]) -> Result<usize, Refusal> {
        WireLibrary::list_register(*self, tables, list)
    }
}

/// Looks at `cases` tables, in each at one link and at the register.
pub fn compare(arguments: &Arguments) -> Report {
    let library = WireLibrary::linked().ok_or("libwire_exports.a is not linked: run tests/rust/build-store")?;
    compare_by(arguments, &library)
}

/// The same of any subject.
pub fn compare_by(arguments: &Arguments, library: &dyn Wire) -> Report {
    let mut counts = Counts::default();
    let mut stores = 0;
    while counts.tables < arguments.cases {
        let seed = arguments.seed_of(stores);
        let mut random = Random::new(seed.rotate_left(32));
        let visited = visit_store(seed, &mut |tables, step| compare_tables(library, tables, step, &mut random, &mut counts));
        visited.map_err(|difference| format!("store {seed}: {difference}"))?;
        stores += 1;
    }
    let mut random = Random::new(arguments.seed);
    let saved = visit_saved(&mut |tables, step| compare_tables(library, tables, step, &mut random, &mut counts))?;
    if arguments.cases >= MANY {
        counts.frames.require(&DUE_FRAMES)?;
        counts.lists.require(&DUE_LISTS)?;
        counts.pairs.require(&DUE_UNFINISHED.concat())?;
        counts.pairs.require(&DUE_FINISHED)?;
    }
    let Counts { tables, sound, frames, lists, pairs } = counts;
    let places = format!("where a WRITE is beside a READ: {pairs}");
    Ok(format!("{tables} tables, {sound} of them sound, {stores} stores and {saved} saved; links: {frames}; registers: {lists}; {places}"))
}

/// The frame of a link and the register of tables; then they go on by the model.
fn compare_tables(
    library: &dyn Wire,
    tables: &mut Tables,
    step: &Step,
    random: &mut Random,
    counts: &mut Counts,
) -> Result<(), String> {
    compare_link(library, tables, random, counts)?;
    compare_list(library, tables, random, counts)?;
    counts.tables += 1;
    if words::sound(tables) {
        counts.sound += 1;
        compare_changed_list(library, tables, random, counts)?;
    }
    let _ = words::take(tables, step);
    Ok(())
}

/// A link, most often one that holds something, and sometimes one that is not there.
fn some_link(tables: &Tables, random: &mut Random) -> (u32, u32) {
    if random.chance(1, 12) {
        return (random.word(), random.word());
    }
    let clients = tables.counts.get(CLIENTS).map_or(1, |&clients| clients.clamp(1, 16)) as usize;
    let busy = |link: &usize| tables.links.get(LINK_WORDS * link).is_some_and(|&kind| kind != NOTHING);
    let waiting: Vec<usize> = (0..LINKS_OF_CLIENT * clients).filter(busy).collect();
    let link =
        if waiting.is_empty() || random.chance(1, 6) { random.below(LINKS_OF_CLIENT * clients) } else { random.pick(&waiting) };
    ((link / LINKS_OF_CLIENT) as u32, (link % LINKS_OF_CLIENT) as u32)
}

/// The frame that a link's message has: 2, 3, then 9, of a lost link too. What stands on a link of sound tables can be written.
pub fn frame_of(tables: &Tables, client: u32, target: u32) -> Result<Vec<u8>, Refusal> {
    if !words::sound(tables) {
        return Err(Refusal::Unsound);
    }
    let store = words::store_of(tables);
    let (place, toward) = (client as usize, target as usize);
    let there = place < store.clients.len() && (toward < store.servers.len() || toward == COORDINATOR);
    if !there {
        return Err(Refusal::NoSuchPlace);
    }
    let message = message_on(&store.clients[place].links[toward], client as u8, target as u8).ok_or(Refusal::NothingThere)?;
    Ok(frames::write(&message).expect("what stands on a link can be written"))
}

/// Enough room, or just enough, or too little, or none.
fn room(needed: usize, longest: usize, random: &mut Random) -> usize {
    match random.below(6) {
        0 => needed,
        1 => needed.saturating_sub(1),
        2 => random.below(needed + 1),
        _ => longest + random.below(3),
    }
}

/// One link: the answer, and every lent byte afterwards.
fn compare_link(library: &dyn Wire, tables: &Tables, random: &mut Random, counts: &mut Counts) -> Result<(), String> {
    let (client, target) = some_link(tables, random);
    let frame = frame_of(tables, client, target);
    let filler = random.word() as u8;
    let mut expected_bytes = vec![filler; room(frame.as_ref().map_or(0, Vec::len), LONGEST_FRAME, random)];
    let mut bytes = expected_bytes.clone();
    let expected = frame.and_then(|frame| {
        let front = expected_bytes.get_mut(..frame.len()).ok_or(Refusal::NoRoom)?;
        front.copy_from_slice(&frame);
        Ok(frame.len())
    });
    let found = library.write_link_frame(tables, client, target, &mut bytes);
    let link = || format!("the link ({client}, {target}), {} bytes lent", bytes.len());
    if found != expected {
        return Err(format!("{} answers {found:?}, the model {expected:?}; {}", link(), shown(tables)));
    }
    if bytes != expected_bytes {
        return Err(format!("{} leaves {bytes:x?}, the model {expected_bytes:x?}; {}", link(), shown(tables)));
    }
    counts.frames.count(&match expected {
        Ok(_) => format!("kind {}", bytes[0] >> 4),
        Err(Refusal::NothingThere) if tables.link(client as usize, target as usize)[0] == LOST => "no 9 of a lost link".into(),
        Err(refusal) => refusal.to_string(),
    });
    Ok(())
}

/// The register of sound tables whose records have other begins and ends.
fn compare_changed_list(library: &dyn Wire, tables: &Tables, random: &mut Random, counts: &mut Counts) -> Result<(), String> {
    let mut changed = tables.clone();
    (0..random.within(1, 3)).for_each(|_| change_record_step(&mut changed, random));
    compare_list(library, &changed, random, counts)
}

/// The register: the answer, and every word of the lent list afterwards.
fn compare_list(library: &dyn Wire, tables: &Tables, random: &mut Random, counts: &mut Counts) -> Result<(), String> {
    let mut whole = vec![0; LINE_WORDS * MOST_LINES];
    let lines = list_register(tables, &mut whole).unwrap_or(0);
    let mut expected_list = vec![random.word(); room(LINE_WORDS * lines, LINE_WORDS * MOST_LINES, random)];
    let mut list = expected_list.clone();
    let expected = list_register(tables, &mut expected_list);
    let found = library.list_register(tables, &mut list);
    if found != expected {
        return Err(format!("the register answers {found:?}, the model {expected:?}; {}", shown(tables)));
    }
    if list != expected_list {
        let place = (0..list.len()).find(|&place| list[place] != expected_list[place]).expect("they differ");
        return Err(format!("word {place} is {}, the model's {}; {}", list[place], expected_list[place], shown(tables)));
    }
    match expected {
        Ok(lines) => {
            counts.lists.count("listed");
            count_orders(&list[..LINE_WORDS * lines], &mut counts.lists);
            count_pairs(tables, &mut counts.pairs);
        }
        Err(refusal) => counts.lists.count(&refusal.to_string()),
    }
    Ok(())
}

/// Whether READs of one tag, listed by begin, ended in another order, whether different ones began at one step, and whether a badge is
/// listed that a byte has no room for.
fn count_orders(list: &[u32], lists: &mut Tally) {
    let rows: Vec<&[u32]> = list.chunks_exact(LINE_WORDS).collect();
    let of_one_tag = |pair: &&[&[u32]]| pair[0][0] == READ && pair[1][0] == READ && pair[0][TAG] == pair[1][TAG];
    let pairs: Vec<&[&[u32]]> = rows.windows(2).filter(of_one_tag).collect();
    if pairs.iter().any(|pair| pair[0][END] > pair[1][END]) {
        lists.count("with READs of one tag that end in another order");
    }
    if pairs.iter().any(|pair| pair[0][BEGIN] == pair[1][BEGIN] && pair[0] != pair[1]) {
        lists.count("with READs that tie");
    }
    if rows.iter().any(|row| row[BADGE] > 255) {
        lists.count("with badges above 255");
    }
}

/// Counts where WRITEs are beside finished READs, each place once for a register.
fn count_pairs(tables: &Tables, pairs: &mut Tally) {
    let store = words::store_of(tables);
    let finished = store.reads.iter().filter_map(|read| read.end.map(|end| (read.begin, end)));
    let beside = |(begin, end)| store.writes.iter().filter_map(move |write| place_beside(write, begin, end));
    finished.flat_map(beside).collect::<BTreeSet<_>>().into_iter().for_each(|name| pairs.count(name));
}

/// Of a READ with this begin and end.
fn place_beside(write: &WriteRecord, begin: u32, end: u32) -> Option<&'static str> {
    let [overlapping, at_begin, at_end] = DUE_FINISHED;
    let Some(ended) = write.end else {
        let places = DUE_UNFINISHED[usize::from(write.tag == 0)];
        return Some(match write.begin {
            begun if begun > end => places[3],
            begun if begun == end => places[2],
            begun if begun > begin => places[1],
            _ => places[0],
        });
    };
    match (ended.cmp(&begin), write.begin.cmp(&end)) {
        (Ordering::Greater, Ordering::Less) => Some(overlapping),
        (Ordering::Equal, Ordering::Less) => Some(at_begin),
        (Ordering::Greater, Ordering::Equal) => Some(at_end),
        _ => None,
    }
}
