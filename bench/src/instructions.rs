//! How many instructions each kind of step, the check of tables, each kind of frame, a load's steps and the program take, on both sides.
//! They repeat exactly, where times do not.
//! `count` runs under callgrind and has it write a file for each figure; `report` makes tables of the files. `bench/run instructions` does
//! both.

use crate::calls;
use crate::check;
use crate::frame_speed::{places, Codec, Fast, Lent, Rust, FRAMES, MOST_BYTES};
use crate::goals;
use crate::growth::{Case, BY_LOG, BY_SERVERS};
use crate::load_speed::{self, PRESSES as PRESSES_OF_LOADS};
use crate::plans::{in_turn, Plan};
use crate::program;
use crate::sides::{self, Meter};
use crate::steps::{kinds, METHODS, PRESSES};
use crate::table::{print, ratio, time};
use ffi::{FrameLibrary, LoadLibrary, StoreLibrary};
use model::Step;
use std::arch::asm;
use std::ffi::CString;
use std::fs;
use std::hint::black_box;
use std::path::Path;

/// Callgrind's requests, as its header numbers them.
const TOGGLE_COLLECT: u64 = 0x4354_0002;
const DUMP_STATS_AT: u64 = 0x4354_0003;
const RUNNING_ON_VALGRIND: u64 = 0x1001;

/// Asks valgrind something: a sequence of instructions that it knows, and that does nothing elsewhere.
#[inline(always)]
fn ask(request: u64, argument: u64) -> u64 {
    let words = [request, argument, 0, 0, 0, 0];
    let mut answer = 0;
    // The four turns make 128 bits, so that the register is what it was.
    unsafe {
        asm!(
            "rol rdi, 3", "rol rdi, 13", "rol rdi, 61", "rol rdi, 51", "xchg rbx, rbx",
            in("rax") words.as_ptr(), inout("rdx") answer, options(nostack)
        );
    }
    answer
}

/// Counts the instructions of a call. What it gives is dropped by the caller, uncounted.
#[inline(never)]
fn counted<R>(call: impl FnOnce() -> R) -> R {
    ask(TOGGLE_COLLECT, 0);
    let result = black_box(call());
    ask(TOGGLE_COLLECT, 0);
    result
}

/// Has what was counted since the last time written to a file, under the names of a table, a row and a side, with the number of calls.
fn written(table: &str, row: &str, side: &str, calls: usize) {
    written_of(table, row, side, calls, calls);
}

/// The same where a call does several of the things that the figure is of.
fn written_of(table: &str, row: &str, side: &str, calls: usize, things: usize) {
    let label = CString::new(format!("{table}|{row}|{side}|{calls}|{things}")).expect("no byte 0");
    ask(DUMP_STATS_AT, label.as_ptr() as u64);
}

/// The table that has what a call of nothing takes, which is taken off every figure.
const NOTHING: &str = "nothing";

/// What a call of nothing takes.
pub fn count_of_nothing() {
    assert!(ask(RUNNING_ON_VALGRIND, 0) > 0, "the instructions are counted under valgrind: bench/run instructions");
    counted(|| ());
    written(NOTHING, "", "", 1);
}

/// The tables by their titles.
const OF_STEPS: &str = "Instructions of steps";
const OF_GROWTH: &str = "Instructions of steps by the log and the versions";
const OF_GROWTH_WITH_SERVERS: &str = "Instructions of steps by the servers, a log of 64";
const OF_CHECKS: &str = "Instructions of the check of sound tables";
const OF_FAST_FRAMES: &str = "Instructions of frames, beside a codec written for speed";
const OF_PROGRAM: &str = "Instructions of the program, a line of 100,000";

/// The goal of a row.
fn goal(table: &str, row: &str) -> f64 {
    match table {
        OF_GROWTH => BY_LOG.iter().find(|case| row.starts_with(case.name)).map_or(goals::NONE, |case| case.goal),
        OF_GROWTH_WITH_SERVERS => BY_SERVERS.iter().find(|case| row.starts_with(case.name)).map_or(goals::NONE, |case| case.goal),
        OF_CHECKS => goals::CHECK,
        OF_PROGRAM => goals::PROGRAM,
        OF_FAST_FRAMES => goals::of_frame(FRAMES.iter().find(|&&frame| row == frame_row(frame)).expect("a frame").1),
        _ if table.starts_with(OF_STEPS) => goals::of_step(row),
        _ => goals::NONE,
    }
}

fn frame_row((kind, entries): (u32, u32)) -> String {
    format!("kind {kind}, {entries} entries")
}

/// Steps and checks.
pub fn count_of_steps(store: StoreLibrary) {
    for (place, &(servers, clients, times, _)) in PRESSES.iter().enumerate() {
        let table = format!(
            "{OF_STEPS}, {servers} servers and {clients} clients, {times} WRITEs and {times} READs of all servers in turn"
        );
        // A step that checks all tables of the larger press takes so long under valgrind that the first press must do.
        count_steps(&table, store, &METHODS.map(|method| in_turn(method, servers, clients, times)), place == 0);
    }
    count_growth(OF_GROWTH, store, "a log of", &BY_LOG, &[1, 256]);
    count_growth(OF_GROWTH_WITH_SERVERS, store, "k =", &BY_SERVERS, &[1, 16]);
    count_checks(OF_CHECKS, store);
}

/// Frames.
pub fn count_of_frames(frame: FrameLibrary) {
    count_frames("Instructions of frames", frame, Rust);
    count_frames(OF_FAST_FRAMES, frame, Fast);
}

/// Loads.
pub fn count_of_loads(store: StoreLibrary, load: LoadLibrary) {
    count_loads("Instructions of a load's step, of 20,000 from openings", store, load);
}

/// Counts the steps of a plan that are at these places in it, or of this kind.
struct Counted<T: Fn(usize, &str) -> bool>(T);

impl<T: Fn(usize, &str) -> bool> Meter for Counted<T> {
    type Told = ();

    fn play<S, R>(&self, plan: &Plan, fresh: impl Fn() -> S, take: impl Fn(&mut S, &Step) -> R) {
        let mut state = fresh();
        for (place, (step, kind)) in plan.steps.iter().zip(&plan.kinds).enumerate() {
            drop(if self.0(place, kind) { counted(|| take(&mut state, step)) } else { take(&mut state, step) });
        }
    }
}

fn count_steps(table: &str, library: StoreLibrary, plans: &[Plan], checked: bool) {
    count_openings(table, library, &plans[1]);
    for kind in kinds(plans) {
        let calls = plans.iter().flat_map(|plan| &plan.kinds).filter(|&&other| other == kind).count();
        let having = || plans.iter().filter(|plan| plan.kinds.contains(&kind));
        let meter = Counted(|_, other: &str| other == kind);
        having().for_each(|plan| sides::inner(&meter, library, plan));
        written(table, kind, "inner", calls);
        having().for_each(|plan| sides::fast(&meter, library, plan));
        written(table, kind, "fast", calls);
        if checked {
            having().for_each(|plan| sides::checked(&meter, library, plan));
            written(table, kind, "checked", calls);
            having().for_each(|plan| sides::fast_checked(&meter, library, plan));
            written(table, kind, "fast, checked", calls);
        }
    }
}

fn count_openings(table: &str, library: StoreLibrary, plan: &Plan) {
    let mut tables = sides::opened_tables(library, &plan.opening);
    counted(|| library.number(&mut tables, &plan.opening));
    written(table, "open", "inner", 1);
    counted(|| calls::number_checked(&mut tables, &plan.opening));
    written(table, "open", "fast", 1);
}

/// The last steps of plans of several sizes, as one figure.
fn count_growth(table: &str, library: StoreLibrary, size_named: &str, cases: &[Case], sizes: &[usize]) {
    for (case, size) in cases.iter().flat_map(|case| sizes.iter().map(move |&size| (case, size))) {
        let plan = (case.plan)(size);
        let first = plan.steps.len() - case.steps;
        let meter = Counted(|place, _: &str| place >= first);
        let row = format!("{}, {size_named} {size}", case.name);
        sides::inner(&meter, library, &plan);
        written_of(table, &row, "inner", case.steps, 1);
        sides::fast(&meter, library, &plan);
        written_of(table, &row, "fast", case.steps, 1);
    }
}

fn count_checks(table: &str, library: StoreLibrary) {
    for ([servers, clients, versions], tables) in check::cases(library) {
        let row = format!("{servers} servers, {clients} clients, {versions} versions of each server");
        counted(|| library.sound(&tables));
        written(table, &row, "proved", 1);
        counted(|| calls::sound(&tables));
        written(table, &row, "fast", 1);
    }
}

fn count_frames<C: Codec>(table: &str, library: FrameLibrary, other: C) {
    for (kind, entries) in FRAMES {
        let row = frame_row((kind, entries));
        let lent = Lent::of(library, kind, entries);
        count_written(table, &row, library, &lent);
        count_written(table, &row, other, &lent);
        count_read(table, &row, library, &lent);
        count_read(table, &row, other, &lent);
    }
}

fn count_written<C: Codec>(table: &str, row: &str, side: C, Lent { fixed, keys, badges, numbers, .. }: &Lent) {
    let mut bytes = vec![0; MOST_BYTES];
    C::length(counted(|| side.write(fixed, keys, badges, numbers, &mut bytes))).expect("a good message");
    written(table, row, &format!("{}, written", C::NAME), 1);
}

fn count_read<C: Codec>(table: &str, row: &str, side: C, Lent { fixed, frame, .. }: &Lent) {
    let [mut keys, mut badges, mut numbers] = places();
    assert_eq!(C::message(counted(|| side.read(frame, &mut keys, &mut badges, &mut numbers))), Some(*fixed));
    written(table, row, &format!("{}, read", C::NAME), 1);
}

fn count_loads(table: &str, store: StoreLibrary, library: LoadLibrary) {
    const STEPS: u32 = 20_000;
    for press in PRESSES_OF_LOADS {
        let row = load_speed::name(&press);
        let openings = load_speed::by_proved(store, library, &press, STEPS, &mut |call| counted(call));
        written_of(table, &row, "proved", openings, STEPS as usize);
        let openings = load_speed::by_fast(store, &press, STEPS, &mut |call| counted(call));
        written_of(table, &row, "fast", openings, STEPS as usize);
    }
}

/// A file of callgrind's: where it belongs, and the instructions of so many calls that do so many things.
struct Figure {
    table: String,
    row: String,
    side: String,
    instructions: f64,
    calls: f64,
    things: f64,
}

/// The figures in the order in which they were written; `folder` has callgrind's files out.1, out.2 and so on.
fn figures(folder: &Path) -> Vec<Figure> {
    let read = |number: usize| fs::read_to_string(folder.join(format!("out.{number}"))).ok();
    (1..).map_while(read).filter_map(|text| figure(&text)).collect()
}

fn figure(text: &str) -> Option<Figure> {
    let behind = |words: &str| text.lines().find_map(|line| line.strip_prefix(words));
    let label: Vec<&str> = behind("desc: Trigger: Client Request: ")?.split('|').collect();
    let [table, row, side, calls, things] = label[..] else {
        panic!("a file of another program");
    };
    let number = |text: &str| text.trim().parse::<f64>().expect("a number");
    let instructions = number(behind("totals: ").or(behind("summary: "))?);
    let (calls, things) = (number(calls), number(things));
    Some(Figure { table: table.into(), row: row.into(), side: side.into(), instructions, calls, things })
}

pub fn report(folder: &Path) {
    let figures = figures(folder);
    let nothing = figures.iter().find(|figure| figure.table == NOTHING).expect("counted").instructions;
    let found = |table: &str, row: &str, side: &str| {
        let here = |figure: &&Figure| figure.table == table && figure.row == row && figure.side == side;
        figures.iter().find(here).map(|figure| (figure.instructions - nothing * figure.calls) / figure.things)
    };
    for table in distinct(figures.iter().filter(|figure| figure.table != NOTHING).map(|figure| &figure.table)) {
        let within = || figures.iter().filter(|figure| figure.table == table);
        let names = distinct(within().map(|figure| &figure.side));
        let heads: Vec<&str> = [""].into_iter().chain(names.chunks(2).flat_map(|pair| [pair[0], pair[1], "ratio"])).collect();
        let rows: Vec<Vec<String>> = distinct(within().map(|figure| &figure.row))
            .into_iter()
            .map(|row| cells(row, &names, goal(table, row), |side| found(table, row, side)))
            .collect();
        print(table, &heads, &rows);
    }
    report_programs(folder);
}

/// Writes the program's schedules to a folder, from which both programs are run under callgrind.
pub fn write_schedules(folder: &Path) {
    for (place, (_, text)) in program::schedules().iter().enumerate() {
        fs::write(folder.join(format!("schedule.{place}")), text).expect("the folder takes a file");
    }
}

/// A line's instructions, less those of a run without lines.
fn report_programs(folder: &Path) {
    let total = |place: usize, side: &str| {
        let text = fs::read_to_string(folder.join(format!("program.{place}.{side}"))).ok()?;
        let behind = |words: &str| text.lines().find_map(|line| line.strip_prefix(words));
        behind("totals: ").or(behind("summary: "))?.trim().parse::<f64>().ok()
    };
    let sides = ["proved", "fast"];
    let [Some(proved), Some(fast)] = sides.map(|side| total(0, side)) else { return };
    let mut rows = Vec::new();
    for (place, (name, _)) in program::schedules().iter().enumerate().skip(1) {
        let of_line = |side: &str| {
            let nothing = if side == sides[0] { proved } else { fast };
            total(place, side).map(|instructions| (instructions - nothing) / program::LINES as f64)
        };
        rows.push(cells(name, &sides, goal(OF_PROGRAM, name), of_line));
    }
    print(OF_PROGRAM, &["", "proved", "fast", "ratio"], &rows);
}

/// A row: its name, then of each two sides both figures and their ratio; nothing where they were not counted.
fn cells(row: &str, names: &[&str], goal: f64, found: impl Fn(&str) -> Option<f64>) -> Vec<String> {
    let pair = |pair: &[&str]| match (found(pair[0]), found(pair[1])) {
        // A checked step is for the most part the check.
        (Some(proved), Some(other)) if pair[0] == "checked" => [time(proved), time(other), ratio(proved, other, goals::CHECK)],
        (Some(proved), Some(other)) => [time(proved), time(other), ratio(proved, other, goal)],
        _ => Default::default(),
    };
    [row.to_string()].into_iter().chain(names.chunks(2).flat_map(pair)).collect()
}

fn distinct<'a>(names: impl Iterator<Item = &'a String>) -> Vec<&'a str> {
    let mut found: Vec<&str> = Vec::new();
    for name in names {
        if !found.contains(&name.as_str()) {
            found.push(name);
        }
    }
    found
}
