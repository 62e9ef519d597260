//! That the comparisons, and the saved runs of method A, find stores that are wrong in one thing that document 02's E10 brings. A wrong store
//! is the model with one thing spoilt.

use crate::arguments::Arguments;
use crate::load_run::{self, Loads};
use crate::neighbours_run::{self, Asked};
use crate::tables_run::{self, Subject};
use crate::wire_run::{self, frame_of, Wire};
use crate::{load_text_run, schedules_run};
use model::answer::printed;
use model::line::{lines, step_of};
use model::{history, Outcome, Player, Refusal, Step, Store};
use std::path::Path;
use words::layout::METHOD;
use words::load::{LoadEnd, LoadPick, NO_STEP};
use words::Tables;

/// What is wrong.
#[derive(Clone, Copy, Debug, PartialEq)]
enum Flaw {
    Nothing,
    /// An opening by method 1 is accepted, as it was; or it is refused and takes a step number.
    Opens,
    OpeningCounts,
    /// A WRITE begins on tables of method 1, or a READ does, as they did.
    Writes,
    Reads,
    /// 5, 6 or 7 in place of 4, where that too is wrong with a begin.
    BusyFirst,
    MaskFirst,
    FullFirst,
    /// 4 in place of 3.
    PanelLater,
    /// The parts alone are asked, as before: panel 0 does not write, and the others do not read.
    WrongPartsAlone,
    /// Tables of method 1 are not sound.
    NotSound,
    /// On these deliveries of requests, of replies, losses, or what is sent again are refused by 4 too.
    RequestsRefused,
    RepliesRefused,
    LossesRefused,
    ResendsRefused,
    /// 4 on tables of method 2 too, where panel 0 writes.
    MethodBToo,
}

const FLAWS: [Flaw; 15] = [
    Flaw::Opens,
    Flaw::OpeningCounts,
    Flaw::Writes,
    Flaw::Reads,
    Flaw::BusyFirst,
    Flaw::MaskFirst,
    Flaw::FullFirst,
    Flaw::PanelLater,
    Flaw::WrongPartsAlone,
    Flaw::NotSound,
    Flaw::RequestsRefused,
    Flaw::RepliesRefused,
    Flaw::LossesRefused,
    Flaw::ResendsRefused,
    Flaw::MethodBToo,
];

/// Those that no saved run shows: none has 255 WRITEs or READs, and all are of method 1.
const IN_TABLES_ALONE: [Flaw; 2] = [Flaw::FullFirst, Flaw::MethodBToo];

impl Flaw {
    /// A step on sound tables of method 1.
    fn on_method_1(self, tables: &mut Tables, step: &Step) -> Outcome {
        let refused = match step {
            Step::BeginWrite { .. } | Step::BeginRead { .. } => return self.begin(tables, step),
            Step::DeliverRequest { .. } => Flaw::RequestsRefused,
            Step::DeliverReply { .. } => Flaw::RepliesRefused,
            Step::Lose { .. } => Flaw::LossesRefused,
            Step::Resend { .. } => Flaw::ResendsRefused,
            Step::Open { .. } => unreachable!("openings do not go by the tables"),
        };
        if self == refused {
            return Err(Refusal::Retired);
        }
        words::take(tables, step)
    }

    fn begin(self, tables: &mut Tables, step: &Step) -> Outcome {
        let former = words::store_of(tables).former_answer(step).expect("a begin");
        let writes = matches!(step, Step::BeginWrite { .. });
        match (self, former) {
            (Flaw::Writes, Ok(_)) if writes => words::take_mixed(tables, step),
            (Flaw::Reads, Ok(_)) if !writes => words::take_mixed(tables, step),
            (Flaw::WrongPartsAlone, Ok(_)) => words::take_mixed(tables, step),
            (Flaw::WrongPartsAlone, Err(refusal)) => Err(refusal),
            (Flaw::BusyFirst, Err(Refusal::Busy)) => Err(Refusal::Busy),
            (Flaw::MaskFirst, Err(Refusal::BadMask)) => Err(Refusal::BadMask),
            (Flaw::FullFirst, Err(Refusal::Exhausted)) => Err(Refusal::Exhausted),
            (Flaw::PanelLater, Err(Refusal::NoSuchPlace)) => Err(Refusal::Retired),
            _ => words::take(tables, step),
        }
    }

    fn open(self, tables: &mut Tables, step: &Step) -> Outcome {
        let by_1 = matches!(step, Step::Open { method: 1, .. });
        match self {
            Flaw::Opens if by_1 => words::take_mixed(tables, step),
            Flaw::OpeningCounts if by_1 && words::sound(tables) => {
                tables.counts[words::layout::STEP] = tables.counts[words::layout::STEP].saturating_add(1);
                words::take(tables, step)
            }
            _ => words::take(tables, step),
        }
    }
}

impl Subject for Flaw {
    fn sound(&self, tables: &Tables) -> bool {
        words::sound(tables) && (*self != Flaw::NotSound || tables.counts[METHOD] != 1)
    }

    fn take(&self, tables: &mut Tables, step: &Step) -> Outcome {
        if matches!(step, Step::Open { .. }) {
            return self.open(tables, step);
        }
        if !self.sound(tables) {
            return Err(Refusal::Unsound);
        }
        match (self, tables.counts[METHOD], step) {
            (Flaw::MethodBToo, 2, Step::BeginWrite { client: 0, .. }) => Err(Refusal::Retired),
            (_, 1, _) => self.on_method_1(tables, step),
            _ => words::take(tables, step),
        }
    }

    fn take_sound(&self, tables: &mut Tables, step: &Step) -> Outcome {
        self.take(tables, step)
    }
}

fn arguments(subject: &str, cases: usize) -> Arguments {
    Arguments { subject: subject.into(), program: Vec::new(), cases, seed: 1 }
}

#[test]
fn tables_show_what_is_wrong() {
    let tables = |flaw: Flaw, cases: usize| tables_run::compare_by(&arguments("tables", cases), &flaw);
    for flaw in FLAWS {
        assert!(tables(flaw, 30_000).is_err(), "{flaw:?} is not found");
    }
}

fn file(name: &str, end: &str) -> Vec<u8> {
    let folder = Path::new(env!("CARGO_MANIFEST_DIR")).join("../../../tests/saved");
    std::fs::read(folder.join(format!("{name}.{end}"))).expect("a saved run")
}

/// What is printed for the schedule of a saved run by a store with this flaw, on the tables that the former rules left.
fn played(flaw: Flaw, name: &str) -> String {
    let mut tables = Tables::filled(16, 16, 0);
    for line in lines(&file(name, "former.txt")) {
        words::take_mixed(&mut tables, &step_of(line).expect("a step")).expect("accepted");
    }
    let mut output = String::new();
    for (number, line) in (1..).zip(lines(&file(name, "txt"))) {
        let outcome = step_of(line).map_or(Err(Refusal::Unreadable), |step| flaw.take(&mut tables, &step));
        output.push_str(&format!("{number} {}\n", printed(&outcome)));
    }
    let Store { writes, reads, .. } = words::store_of(&tables);
    output + &history::printed(&writes, &reads)
}

#[test]
fn saved_runs_show_what_is_wrong() {
    let names = ["crossing-a", "losses-a", "overlaps-a", "unfinished-a"];
    let shown = |flaw: Flaw| names.iter().any(|name| played(flaw, name).as_bytes() != file(name, "out"));
    assert!(!shown(Flaw::Nothing));
    for flaw in FLAWS {
        assert_eq!(shown(flaw), !IN_TABLES_ALONE.contains(&flaw), "{flaw:?}");
    }
}

/// A yard program that opens by method 1.
fn replayed(schedule: &[u8]) -> Vec<u8> {
    let (mut player, mut output) = (Player::default(), String::new());
    for (number, line) in (1..).zip(lines(schedule)) {
        let outcome = step_of(line).map_or(Err(Refusal::Unreadable), |step| player.take_mixed(&step));
        output.push_str(&format!("{number} {}\n", printed(&outcome)));
    }
    let register = player.store.map_or(String::new(), |Store { writes, reads, .. }| history::printed(&writes, &reads));
    (output + &register).into_bytes()
}

#[test]
fn schedules_show_an_opening_by_method_1() {
    assert!(schedules_run::compare_by(&arguments("schedules", 200), &mut |schedule| Ok(replayed(schedule))).is_err());
}

/// A program that makes loads by method 1 too: of each the opening alone, with so many setpoints.
fn load_made(text: &[u8]) -> Vec<u8> {
    match lines(text).next().and_then(model::line::load_of) {
        Some([_, _, 1, servers, clients]) if (1..=16).contains(&servers) && (2..=16).contains(&clients) => {
            format!("O 1 {servers} {clients}{}\n", " 0".repeat(servers as usize)).into_bytes()
        }
        _ => schedules::load_text(text),
    }
}

#[test]
fn load_text_shows_a_load_by_method_1() {
    let right = load_text_run::compare_by(&arguments("load-text", 300), &mut |text| Ok(schedules::load_text(text)));
    assert!(right.is_ok(), "{right:?}");
    assert!(load_text_run::compare_by(&arguments("load-text", 300), &mut |text| Ok(load_made(text))).is_err());
}

/// Requests on tables of method 1 that are not sound, or refused.
#[test]
fn neighbours_show_what_is_wrong() {
    let neighbours =
        |flaw: Flaw| neighbours_run::compare_by(&arguments("neighbours", 2000), Asked::EqualOrdersAsTheModel, &|| Box::new(flaw));
    let passed = neighbours(Flaw::Nothing);
    assert!(passed.is_ok(), "{passed:?}");
    for flaw in [Flaw::NotSound, Flaw::RequestsRefused, Flaw::RepliesRefused, Flaw::LossesRefused, Flaw::Writes, Flaw::Opens] {
        assert!(neighbours(flaw).is_err(), "{flaw:?} is not found");
    }
}

/// Frames and registers of tables of method 1, which are refused by 2.
struct NotListed;

impl Wire for NotListed {
    fn write_link_frame(&self, tables: &Tables, client: u32, target: u32, bytes: &mut [u8]) -> Result<usize, Refusal> {
        let frame = frame_of(tables, client, target)?;
        bytes.get_mut(..frame.len()).ok_or(Refusal::NoRoom)?.copy_from_slice(&frame);
        Ok(frame.len())
    }

    fn list_register(&self, tables: &Tables, list: &mut [u32]) -> Result<usize, Refusal> {
        if tables.counts.first() == Some(&1) {
            return Err(Refusal::Unsound);
        }
        words::register::list_register(tables, list)
    }
}

#[test]
fn wire_shows_a_register_that_is_not_listed() {
    assert!(wire_run::compare_by(&arguments("wire", 2000), &NotListed).is_err());
}

/// Loads that end on tables of method 1 at once, or that begin there what the former rules began.
#[derive(Clone, Copy, PartialEq)]
enum Loading {
    Ends,
    Begins,
}

impl Loads for Loading {
    fn advance(&self, seed: u32) -> u32 {
        model::load::advance(seed)
    }

    fn next_step(&self, tables: &Tables, seed: u32) -> LoadPick {
        let right = words::load::next_step(tables, seed);
        let read = Step::BeginRead { client: 0, mask: 1 };
        let begins = |store: Store| store.former_answer(&read).is_some_and(|answer| answer.is_ok());
        match self {
            Loading::Begins if right.answer == NO_STEP && begins(words::store_of(tables)) => {
                LoadPick { answer: 0, seed: model::load::advance(seed), kind: 1, client: 0, second: 1, setpoint: 0 }
            }
            _ => right,
        }
    }

    fn play(&self, tables: &mut Tables, seed: u32, length: u32, list: &mut [u32]) -> LoadEnd {
        let of_method_1 = words::sound(tables) && tables.counts[METHOD] == 1;
        let length = if *self == Loading::Ends && of_method_1 { 0 } else { length };
        words::load::play_load(tables, seed, length, list)
    }
}

#[test]
fn loads_show_what_is_wrong_on_method_1() {
    for loading in [Loading::Ends, Loading::Begins] {
        assert!(load_run::compare_by(&arguments("load", 100), &loading).is_err());
    }
}
