//! That `compare neighbours` finds stores whose requests at different targets do not commute, by the two orders alone; and that the
//! condition is needed: at one target, and with a reply or a begin beside a request, the order shows.

use crate::arguments::Arguments;
use crate::neighbours_run::{compare_by, Asked};
use crate::tables_run::Subject;
use ffi::StoreLibrary;
use model::key::{first_tag_of, latest, version_of};
use model::line::step_of;
use model::{Link, Outcome, Refusal, Request, Step, Store};
use std::cell::Cell;
use words::layout::{link_place, value_place, ENTRIES, HELD, LINK_BADGE, RECORD_BEGIN, RECORD_WORDS, SERVERS, STEP};
use words::Tables;

/// What is wrong. Each leaves sound tables, and most are right as long as no other request comes between.
#[derive(Clone, Copy, Debug, PartialEq)]
enum Flaw {
    Nothing,
    /// A set done says how many versions all stations hold.
    AllVersionsCounted,
    /// A set done says the step number, or that of a set which the station held already alone does.
    StepInReply,
    StepInSecondReply,
    /// A station stores how long the log is in place of the badge.
    LogInBadge,
    /// A station answers a get with the newest key of the log.
    NewestGot,
    /// A station answers a get with what the station behind it stored last.
    OtherStation,
    /// An enter waits until no set of another panel waits at station 0.
    WaitsForSets,
    /// An enter writes its step number to its record, or one that the log has already does.
    EnterStamped,
    SecondEnterStamped,
    /// The head tells no more of its log, or of its tags, than station 0 has versions.
    LogUpToVersions,
    TagUpToVersions,
    /// The reply of the target that was asked last takes two step numbers.
    LastAskedRemembered,
    /// A station stores badge 0 whatever it is told.
    BadgeLost,
}

const FLAWS: [Flaw; 12] = [
    Flaw::AllVersionsCounted,
    Flaw::StepInReply,
    Flaw::StepInSecondReply,
    Flaw::LogInBadge,
    Flaw::NewestGot,
    Flaw::OtherStation,
    Flaw::WaitsForSets,
    Flaw::EnterStamped,
    Flaw::SecondEnterStamped,
    Flaw::LogUpToVersions,
    Flaw::TagUpToVersions,
    Flaw::LastAskedRemembered,
];

/// The model's steps on words with one thing spoilt behind a delivery.
struct Wrong {
    flaw: Flaw,
    last_asked: Cell<Option<u32>>,
}

impl Subject for Wrong {
    fn sound(&self, tables: &Tables) -> bool {
        words::sound(tables)
    }

    fn take(&self, tables: &mut Tables, step: &Step) -> Outcome {
        let before = tables.clone();
        let answer = words::take(tables, step)?;
        match *step {
            Step::DeliverRequest { client, target } => {
                self.last_asked.set(Some(target));
                if let Err(refusal) = self.spoil(&words::store_of(&before), tables, client as usize, target as usize) {
                    *tables = before;
                    return Err(refusal);
                }
            }
            Step::DeliverReply { target, .. }
                if self.last_asked.get() == Some(target) && self.flaw == Flaw::LastAskedRemembered =>
            {
                tables.counts[STEP] += 1;
            }
            _ => {}
        }
        Ok(answer)
    }

    fn take_sound(&self, tables: &mut Tables, step: &Step) -> Outcome {
        self.take(tables, step)
    }
}

impl Wrong {
    /// An accepted delivery of a request, on the tables behind it and the store before it.
    fn spoil(&self, before: &Store, tables: &mut Tables, client: usize, target: usize) -> Result<(), Refusal> {
        let Link::Request(request) = &before.clients[client].links[target] else { unreachable!("it was delivered") };
        match *request {
            Request::Set { key, .. } => {
                let again = version_of(&before.servers[target], key).is_some();
                self.set(tables, link_place(client, target), target, again);
            }
            Request::Enter { key, .. } => return self.enter(before, tables, client, first_tag_of(&before.log, key).is_some()),
            Request::Get { .. } => self.get(before, tables, link_place(client, target), target),
            Request::GetLog if self.flaw == Flaw::LogUpToVersions => up_to_versions(tables, link_place(client, target)),
            Request::WhichKeys if self.flaw == Flaw::TagUpToVersions => up_to_versions(tables, link_place(client, target)),
            _ => {}
        }
        Ok(())
    }

    fn set(&self, tables: &mut Tables, link: usize, target: usize, again: bool) {
        match self.flaw {
            Flaw::AllVersionsCounted => {
                let held = (0..tables.count(SERVERS)).map(|server| tables.counts[HELD + server]);
                tables.links[link + 2] = held.sum();
            }
            Flaw::StepInReply => tables.links[link + 2] = tables.counts[STEP],
            Flaw::StepInSecondReply if again => tables.links[link + 2] = tables.counts[STEP],
            Flaw::LogInBadge if !again => {
                let place = value_place(target, tables.count(HELD + target) - 1);
                tables.values[place] = tables.counts[ENTRIES];
            }
            Flaw::BadgeLost if !again => {
                let place = value_place(target, tables.count(HELD + target) - 1);
                tables.values[place] = 0;
            }
            _ => {}
        }
    }

    fn enter(&self, before: &Store, tables: &mut Tables, client: usize, again: bool) -> Result<(), Refusal> {
        let set = |link: &Link| matches!(link, Link::Request(Request::Set { .. }));
        match self.flaw {
            Flaw::WaitsForSets if before.clients.iter().any(|row| set(&row.links[0])) => return Err(Refusal::FullOrNotHeld),
            Flaw::EnterStamped => stamp(before, tables, client),
            Flaw::SecondEnterStamped if again => stamp(before, tables, client),
            _ => {}
        }
        Ok(())
    }

    fn get(&self, before: &Store, tables: &mut Tables, link: usize, target: usize) {
        let found = match self.flaw {
            Flaw::NewestGot => version_of(&before.servers[target], latest(&before.log, target, before.last_tag()).key),
            Flaw::OtherStation => before.servers[(target + 1) % before.servers.len()].last().copied(),
            _ => None,
        };
        if let Some(version) = found {
            tables.links[link + 2] = version.setpoint;
            tables.links[link + LINK_BADGE] = u32::from(version.badge);
        }
    }
}

/// The begin of the panel's record becomes the step number.
fn stamp(before: &Store, tables: &mut Tables, client: usize) {
    let record = before.clients[client].record;
    tables.writes[RECORD_WORDS * record + RECORD_BEGIN] = tables.counts[STEP];
}

/// The reply's number is at most that of station 0's versions.
fn up_to_versions(tables: &mut Tables, link: usize) {
    tables.links[link + 2] = tables.links[link + 2].min(tables.counts[HELD]);
}

fn compared(flaw: Flaw, asked: Asked, cases: usize) -> Result<String, String> {
    let arguments = Arguments { subject: "neighbours".into(), program: Vec::new(), cases, seed: 1 };
    compare_by(&arguments, asked, &|| Box::new(Wrong { flaw, last_asked: Cell::new(None) }))
}

#[test]
fn the_right_one_passes() {
    // Long enough that all must be reached that a run is for.
    let passed = compared(Flaw::Nothing, Asked::EqualOrdersAsTheModel, 10_000);
    assert!(passed.is_ok(), "{passed:?}");
}

#[test]
fn the_orders_alone_show_what_is_wrong() {
    for flaw in FLAWS {
        let said = compared(flaw, Asked::EqualOrders, 10_000).expect_err(&format!("{flaw:?} is not found"));
        assert!(said.contains("the other order"), "{flaw:?}: {said}");
    }
}

/// A store that is wrong in the same way in either order is found by the model.
#[test]
fn the_model_shows_what_both_orders_have_wrong() {
    let passed = compared(Flaw::BadgeLost, Asked::EqualOrders, 10_000);
    assert!(passed.is_ok(), "{passed:?}");
    assert!(compared(Flaw::BadgeLost, Asked::EqualOrdersAsTheModel, 10_000).is_err());
}

/// The answers of two lines behind others, and the tables that they leave: in one order and in the other. Where the proved crates are
/// linked they answer and leave the same.
fn either_order(lines: &[&str], two: [&str; 2]) -> [([Outcome; 2], Tables); 2] {
    let step = |line: &str| step_of(line.as_bytes()).expect("a step");
    let mut tables = Tables::filled(16, 16, 0);
    for line in lines {
        words::take(&mut tables, &step(line)).unwrap_or_else(|refusal| panic!("{line}: {refusal}"));
    }
    let play = |two: [&str; 2], take: &dyn Fn(&mut Tables, &Step) -> Outcome| {
        let mut tables = tables.clone();
        (two.map(|line| take(&mut tables, &step(line))), tables)
    };
    [two, [two[1], two[0]]].map(|two| {
        let expected = play(two, &words::take);
        if let Some(library) = StoreLibrary::linked() {
            assert_eq!(play(two, &|tables, step| library.take(tables, step)), expected, "{two:?}");
        }
        expected
    })
}

/// Both orders are accepted and leave other tables.
fn order_shows(lines: &[&str], two: [&str; 2]) {
    let [(one, tables), (other, other_tables)] = either_order(lines, two);
    assert!(one.iter().chain(&other).all(Result::is_ok), "{two:?}: {one:?} and {other:?}");
    assert_ne!(tables, other_tables, "{two:?}");
}

/// Two WRITEs of station 0 by panels 0 and 1, under B.
const TWO_WRITES: [&str; 3] = ["O 2 2 3 0 0", "W 0 1 7 5 5", "W 1 1 8 6 6"];
/// The same with both acknowledged.
const TWO_ENTERS: [&str; 7] = ["O 2 2 3 0 0", "W 0 1 7 5 5", "W 1 1 8 6 6", "> 0 0", "> 1 0", "< 0 0", "< 1 0"];

#[test]
fn at_one_target_the_order_shows() {
    // The station's versions stand in order of arrival.
    order_shows(&TWO_WRITES, ["> 0 0", "> 1 0"]);
    // The log's tags do.
    order_shows(&TWO_ENTERS, ["> 0 16", "> 1 16"]);
    // The head's answer is of its moment, and a station's under C.
    order_shows(&[&TWO_ENTERS[..], &["R 2 3"]].concat(), ["> 0 16", "> 2 16"]);
    order_shows(&["O 3 1 2 0", "W 0 1 7 5", "R 1 1"], ["> 0 0", "> 1 0"]);
}

#[test]
fn with_a_reply_or_a_begin_the_order_shows() {
    // The tag's arrival ends the WRITE, and the record has its step number.
    let entered = [&TWO_ENTERS[..], &["> 0 16", "W 2 2 9 4 4"]].concat();
    order_shows(&entered, ["< 0 16", "> 2 1"]);
    // So does that of the last setpoint.
    order_shows(&["O 2 2 2 0 0", "R 0 1", "> 0 16", "< 0 16", "> 0 0", "W 1 2 9 4 4"], ["< 0 0", "> 1 1"]);
    // A begin's step number stands in its record too.
    order_shows(&["O 3 2 2 0 0", "W 0 1 7 5 5"], ["> 0 0", "R 1 2"]);
    // The last acknowledgement sends what is delivered behind it: in the other order it is not there yet.
    let [(one, _), (other, _)] = either_order(&["O 2 1 1 0", "W 0 1 7 5", "> 0 0"], ["< 0 0", "> 0 16"]);
    assert!(one.iter().all(Result::is_ok));
    assert_eq!(other[0], Err(Refusal::NothingThere));
}

#[test]
fn a_reply_that_ends_nothing_may_cross_a_request() {
    // What is claimed of two requests is not claimed of these, though here it holds: an acknowledgement that is waited for with others.
    let [one, other] = either_order(&["O 2 2 1 0 0", "W 0 3 7 5 5", "> 0 0"], ["< 0 0", "> 0 1"]);
    assert_eq!(one.1, other.1);
}
