//! That `compare tables`, `compare schedules`, the schedules written by hand and the check of demand 3 find stores that are wrong in one
//! thing that losses bring. A wrong store is the model with one thing spoilt behind its step. And that `compare wire` and `compare load` have
//! lost links.

use crate::arguments::Arguments;
use crate::load_run::{self, Loads};
use crate::schedules_run;
use crate::tables_run::{self, Subject};
use crate::wire_run::{self, frame_of, Wire};
use model::answer::printed;
use model::key::{first_tag_of, latest, version_of};
use model::line::{lines, step_of};
use model::{
    history, Answer, Entry, Key, Link, Outcome, Refusal, Reply, Request, State, Step, Store, Version, COORDINATOR, MOST_HELD,
};
use std::cell::RefCell;
use std::collections::{BTreeMap, BTreeSet};
use std::path::Path;
use words::layout::{LINKS_OF_CLIENT, LINK_WORDS, LOST};
use words::load::{LoadEnd, LoadPick};
use words::Tables;

/// What is wrong.
#[derive(Clone, Copy, Debug, PartialEq)]
enum Flaw {
    Nothing,
    /// A resent set is stored twice.
    SetStoredTwice,
    /// A resent enter is entered twice, and its first tag answered.
    EnteredTwice,
    /// The same, and the new tag answered and recorded.
    TaggedTwice,
    /// A resent enter is answered with the log's last tag.
    LastTag,
    /// A resent enter is answered with the last tag that has its key.
    LastTagOfTheKey,
    /// A resent enter records its tag anew.
    TagRecordedAnew,
    /// A full station refuses a duplicate, or a full log does.
    FullStation,
    FullLog,
    /// A station that has 255 versions takes a duplicate for a set that it has no place for.
    NearlyFullStation,
    /// A lost link is taken for an acknowledgement that has arrived.
    LostAcknowledged,
    /// A READ that asks for setpoints does not wait for what is lost.
    LostReplyArrived,
    /// A request is answered again as the first time: which keys, and get all.
    KeysAsBefore,
    AllAsBefore,
    /// What is sent again in state 4 is searched in the log anew, at today's last tag.
    SearchedAnew,
    /// A loss takes no step number, or sending again takes none.
    LossWithoutStep,
    AgainWithoutStep,
    /// A set is sent again with badge 0, with the last READ's badge, or with the first masked station's setpoint.
    BadgeLost,
    BadgeOfARead,
    SetpointOfAnother,
    /// An enter is sent again with all stations.
    EnterOfAll,
    /// The delivery of a request on a lost link is refused by 14.
    LostDelivery,
    /// What is lost is lost again.
    LostTwice,
    /// Sending again on a link that holds a request is taken.
    AgainAnyway,
    /// Losing, and sending again, asks the panel to be idle before it looks at the link.
    BusyLoss,
    /// A lost request of a READ counts as a lost reply: its panel waits for one delivery more.
    RequestAsReply,
}

const FLAWS: [Flaw; 25] = [
    Flaw::SetStoredTwice,
    Flaw::EnteredTwice,
    Flaw::TaggedTwice,
    Flaw::LastTag,
    Flaw::LastTagOfTheKey,
    Flaw::TagRecordedAnew,
    Flaw::FullStation,
    Flaw::FullLog,
    Flaw::NearlyFullStation,
    Flaw::LostAcknowledged,
    Flaw::LostReplyArrived,
    Flaw::KeysAsBefore,
    Flaw::AllAsBefore,
    Flaw::SearchedAnew,
    Flaw::LossWithoutStep,
    Flaw::AgainWithoutStep,
    Flaw::BadgeLost,
    Flaw::BadgeOfARead,
    Flaw::SetpointOfAnother,
    Flaw::EnterOfAll,
    Flaw::LostDelivery,
    Flaw::LostTwice,
    Flaw::AgainAnyway,
    Flaw::BusyLoss,
    Flaw::RequestAsReply,
];

/// Those that remember something beside the tables, so that only runs from an opening have them.
const WITH_MEMORY: [Flaw; 3] = [Flaw::KeysAsBefore, Flaw::AllAsBefore, Flaw::RequestAsReply];

/// Those that no schedule shows: behind an opening a key stands once in the log, at the tag that was recorded.
const IN_TABLES_ALONE: [Flaw; 2] = [Flaw::LastTagOfTheKey, Flaw::TagRecordedAnew];

#[derive(Default)]
struct Memory {
    /// The reply that a request of a READ, by its client, target and record, was first answered with.
    answered: BTreeMap<(u32, u32, usize), Reply>,
    /// Links whose request of a READ was lost and not answered since.
    lost: BTreeSet<(u32, u32)>,
}

struct Wrong {
    flaw: Flaw,
    memory: RefCell<Memory>,
}

impl Wrong {
    fn new(flaw: Flaw) -> Wrong {
        Wrong { flaw, memory: RefCell::default() }
    }

    /// Any step on an opened store.
    fn take_on(&self, store: &mut Store, step: &Step) -> Outcome {
        let before = store.clone();
        let right = store.take(step);
        let (client, target) = match *step {
            Step::DeliverRequest { client, target }
            | Step::DeliverReply { client, target }
            | Step::Lose { client, target }
            | Step::Resend { client, target } => (client, target),
            Step::Open { .. } => {
                self.memory.replace(Memory::default());
                return right;
            }
            _ => return right,
        };
        let Some(link) = before.clients.get(client as usize).and_then(|row| row.links.get(target as usize)) else {
            return right;
        };
        let on = On { before: &before, client, target, link };
        match (step, link) {
            (_, _) if right.is_err() => self.refused(&on, store, step, right),
            (Step::DeliverRequest { .. }, Link::Request(request)) => self.request(&on, store, request, right),
            (Step::DeliverReply { .. }, Link::Reply(_)) => self.reply(&on, store, right),
            (Step::Lose { .. }, _) => self.loss(&on, store, right),
            (Step::Resend { .. }, _) => self.again(&on, store, right),
            _ => right,
        }
    }

    /// A refused step, which some flaws take.
    fn refused(&self, on: &On, store: &mut Store, step: &Step, right: Outcome) -> Outcome {
        let lost = *on.link == Link::Lost;
        match (self.flaw, step, &right) {
            (Flaw::LostDelivery, Step::DeliverRequest { .. }, Err(Refusal::NothingThere)) if lost => Err(Refusal::NothingToLose),
            (Flaw::LostTwice, Step::Lose { .. }, Err(Refusal::NothingToLose)) if lost => {
                store.step += 1;
                Ok(Answer::Ok)
            }
            (Flaw::AgainAnyway, Step::Resend { .. }, Err(Refusal::NotLost)) if matches!(on.link, Link::Request(_)) => {
                store.step += 1;
                Ok(Answer::Ok)
            }
            (Flaw::BusyLoss, Step::Lose { .. } | Step::Resend { .. }, Err(Refusal::NothingToLose | Refusal::NotLost)) => {
                match store.clients[on.client as usize].state {
                    State::Idle => right,
                    _ => Err(Refusal::Busy),
                }
            }
            _ => right,
        }
    }

    /// An accepted delivery of a request.
    fn request(&self, on: &On, store: &mut Store, request: &Request, right: Outcome) -> Outcome {
        let target = on.target as usize;
        match *request {
            Request::Set { key, badge, setpoint } if version_of(&on.before.servers[target], key).is_some() => {
                let held = store.servers[target].len();
                match self.flaw {
                    Flaw::SetStoredTwice if held < MOST_HELD => store.servers[target].push(Version { key, badge, setpoint }),
                    Flaw::FullStation if held == MOST_HELD => return on.refuse(store),
                    Flaw::NearlyFullStation if held == MOST_HELD - 1 => return on.refuse(store),
                    _ => {}
                }
            }
            Request::Enter { key, mask } => self.enter(on, store, key, mask)?,
            Request::WhichKeys | Request::GetAll => self.read_request(on, store, request),
            _ => {}
        }
        right
    }

    /// An enter whose key the log has.
    fn enter(&self, on: &On, store: &mut Store, key: Key, mask: u32) -> Result<(), Refusal> {
        let Some(first) = first_tag_of(&on.before.log, key) else {
            return Ok(());
        };
        let record = store.clients[on.client as usize].record;
        let last_tag = store.last_tag();
        let of_key = store.log.iter().rposition(|entry| entry.key == key).expect("it has the key");
        let room = store.log.len() < MOST_HELD;
        match self.flaw {
            Flaw::EnteredTwice if room => store.log.push(Entry { key, mask }),
            Flaw::TaggedTwice if room => {
                store.log.push(Entry { key, mask });
                on.put(store, Link::Reply(Reply::Entered { tag: last_tag + 1 }));
                store.writes[record].tag = last_tag + 1;
            }
            Flaw::LastTag => on.put(store, Link::Reply(Reply::Entered { tag: last_tag })),
            Flaw::LastTagOfTheKey => on.put(store, Link::Reply(Reply::Entered { tag: of_key })),
            Flaw::TagRecordedAnew => store.writes[record].tag = first,
            Flaw::FullLog if !room => return on.refuse(store).map(drop),
            _ => {}
        }
        Ok(())
    }

    /// A READ's request for keys or versions.
    fn read_request(&self, on: &On, store: &mut Store, request: &Request) {
        let memory = &mut *self.memory.borrow_mut();
        let which = (on.client, on.target, on.before.clients[on.client as usize].record);
        let Link::Reply(reply) = on.of(store).clone() else { unreachable!("it was answered") };
        match (self.flaw, request) {
            (Flaw::KeysAsBefore, Request::WhichKeys) | (Flaw::AllAsBefore, Request::GetAll) => {
                let first = memory.answered.entry(which).or_insert(reply).clone();
                on.put(store, Link::Reply(first));
            }
            (Flaw::RequestAsReply, _) if memory.lost.remove(&(on.client, on.target)) => on.put(store, on.link.clone()),
            _ => {}
        }
    }

    /// An accepted delivery of a reply.
    fn reply(&self, on: &On, store: &mut Store, right: Outcome) -> Outcome {
        let client = on.client as usize;
        let waits_for_lost_alone = {
            let links = &store.clients[client].links;
            links.iter().all(|link| matches!(link, Link::Nothing | Link::Lost)) && links.contains(&Link::Lost)
        };
        if right != Ok(Answer::Wait) || !waits_for_lost_alone {
            return right;
        }
        let row = &mut store.clients[client];
        match (self.flaw, row.state) {
            (Flaw::LostAcknowledged, State::WritingSetpoints) => {
                row.links.fill(Link::Nothing);
                let key = Key { count: row.count, client: client as u8 };
                row.links[COORDINATOR] = Link::Request(Request::Enter { key, mask: row.mask });
                row.state = State::WaitingForTag;
                Ok(Answer::Next)
            }
            (Flaw::LostReplyArrived, State::AskingSetpoints) => {
                row.links.fill(Link::Nothing);
                row.state = State::Idle;
                let (tags, tag, record) = (row.tags, row.tag, row.record);
                let shown = row.shown(&tags);
                store.reads[record].tag = tag;
                store.reads[record].end = Some(store.step);
                Ok(Answer::Read { tag, shown })
            }
            _ => right,
        }
    }

    /// An accepted loss.
    fn loss(&self, on: &On, store: &mut Store, right: Outcome) -> Outcome {
        if self.flaw == Flaw::LossWithoutStep {
            store.step = on.before.step;
        }
        if self.flaw == Flaw::RequestAsReply && matches!(on.link, Link::Request(Request::WhichKeys | Request::GetAll)) {
            self.memory.borrow_mut().lost.insert((on.client, on.target));
        }
        right
    }

    /// An accepted sending again.
    fn again(&self, on: &On, store: &mut Store, right: Outcome) -> Outcome {
        if self.flaw == Flaw::AgainWithoutStep {
            store.step = on.before.step;
        }
        let (row, target) = (store.clients[on.client as usize].clone(), on.target as usize);
        let Link::Request(sent) = on.of(store).clone() else { unreachable!("it was sent") };
        let wrong = match (self.flaw, sent) {
            (Flaw::BadgeLost, Request::Set { key, setpoint, .. }) => Request::Set { key, badge: 0, setpoint },
            (Flaw::BadgeOfARead, Request::Set { key, setpoint, .. }) => {
                Request::Set { key, badge: row.badges[target] as u16, setpoint }
            }
            (Flaw::SetpointOfAnother, Request::Set { key, badge, .. }) => {
                Request::Set { key, badge, setpoint: row.setpoints[row.mask.trailing_zeros() as usize] }
            }
            (Flaw::EnterOfAll, Request::Enter { key, .. }) => Request::Enter { key, mask: (1 << store.servers.len()) - 1 },
            (Flaw::SearchedAnew, Request::Get { .. }) => Request::Get { key: latest(&store.log, target, store.last_tag()).key },
            (_, right) => right,
        };
        on.put(store, Link::Request(wrong));
        right
    }
}

/// The link of a step, with the store before it.
struct On<'a> {
    before: &'a Store,
    client: u32,
    target: u32,
    link: &'a Link,
}

impl On<'_> {
    fn of<'b>(&self, store: &'b Store) -> &'b Link {
        &store.clients[self.client as usize].links[self.target as usize]
    }

    fn put(&self, store: &mut Store, link: Link) {
        store.clients[self.client as usize].links[self.target as usize] = link;
    }

    /// The step is refused as by a full table.
    fn refuse(&self, store: &mut Store) -> Outcome {
        *store = self.before.clone();
        Err(Refusal::FullOrNotHeld)
    }
}

impl Subject for Wrong {
    fn sound(&self, tables: &Tables) -> bool {
        words::sound(tables)
    }

    fn take(&self, tables: &mut Tables, step: &Step) -> Outcome {
        match step {
            Step::Open { .. } => words::take(tables, step),
            _ => words::take_by(tables, |store| self.take_on(store, step)),
        }
    }

    fn take_sound(&self, tables: &mut Tables, step: &Step) -> Outcome {
        self.take(tables, step)
    }
}

/// What a yard program with this flaw prints.
fn replayed(flaw: Flaw, schedule: &[u8]) -> Vec<u8> {
    let (wrong, mut store) = (Wrong::new(flaw), None::<Store>);
    let mut output = String::new();
    for (number, line) in (1..).zip(lines(schedule)) {
        let outcome = match (step_of(line), &mut store) {
            (None, _) => Err(Refusal::Unreadable),
            (Some(step), Some(store)) => wrong.take_on(store, &step),
            (Some(Step::Open { method, servers, clients, setpoints }), none) => Store::open(method, servers, clients, &setpoints)
                .map(|opened| {
                    *none = Some(opened);
                    Answer::Ok
                }),
            (Some(_), None) => Err(Refusal::Unsound),
        };
        output.push_str(&format!("{number} {}\n", printed(&outcome)));
    }
    output.push_str(&store.map_or(String::new(), |store| history::printed(&store.writes, &store.reads)));
    output.into_bytes()
}

fn arguments(subject: &str, cases: usize) -> Arguments {
    Arguments { subject: subject.into(), program: Vec::new(), cases, seed: 1 }
}

/// What `compare tables` says of a store with this flaw.
fn tables(flaw: Flaw, cases: usize) -> Result<String, String> {
    tables_run::compare_by(&arguments("tables", cases), &Wrong::new(flaw))
}

/// What `compare schedules` says of a program with this flaw.
fn schedules(flaw: Flaw, cases: usize) -> Result<String, String> {
    schedules_run::compare_by(&arguments("schedules", cases), &mut |schedule| Ok(replayed(flaw, schedule)))
}

/// Whether the check of demand 3, which has no model, reports an output of a program with this flaw.
fn breaks_demand_3(flaw: Flaw) -> bool {
    let breaks = |seed: u64| {
        let schedule = schedules::schedule(seed, 1);
        demand3::check(&schedule, &replayed(flaw, &schedule)).is_err_and(|found| found.fits)
    };
    (0..600).any(breaks)
}

#[test]
fn the_right_one_passes() {
    // Long enough that all must be reached that a run is for.
    for passed in [tables(Flaw::Nothing, 100_000), schedules(Flaw::Nothing, 1000)] {
        assert!(passed.is_ok(), "{passed:?}");
    }
}

#[test]
fn tables_show_what_is_wrong() {
    for flaw in FLAWS.into_iter().filter(|flaw| !WITH_MEMORY.contains(flaw)) {
        assert!(tables(flaw, 30_000).is_err(), "{flaw:?} is not found");
    }
}

#[test]
fn schedules_show_what_is_wrong() {
    for flaw in FLAWS {
        assert_eq!(schedules(flaw, 600).is_ok(), IN_TABLES_ALONE.contains(&flaw), "{flaw:?}");
    }
}

/// The schedules that were written by hand, with what must be printed for them.
#[test]
fn cards_show_what_is_wrong() {
    let root = Path::new(env!("CARGO_MANIFEST_DIR")).join("../../..");
    let file = |name: &str, end: &str| std::fs::read(root.join(name).with_extension(end)).expect("a schedule");
    let cards = ["tests/schedules/losses", "tests/schedules/writes", "tests/schedules/refusals", "examples/losses"]
        .map(|name| (file(name, "txt"), file(name, "out")));
    let shown = |flaw: Flaw| cards.iter().any(|(schedule, wanted)| replayed(flaw, schedule) != *wanted);
    assert!(!shown(Flaw::Nothing));
    for flaw in FLAWS {
        let never = flaw == Flaw::NearlyFullStation || IN_TABLES_ALONE.contains(&flaw);
        assert_eq!(shown(flaw), !never, "{flaw:?}");
    }
}

/// Without a model, from steps and answers alone.
#[test]
fn demand_3_shows_what_is_wrong() {
    let seen = [
        Flaw::EnteredTwice,
        Flaw::TaggedTwice,
        Flaw::LastTag,
        Flaw::FullStation,
        Flaw::FullLog,
        Flaw::LostAcknowledged,
        Flaw::LostReplyArrived,
        Flaw::SearchedAnew,
        Flaw::LossWithoutStep,
        Flaw::AgainWithoutStep,
        Flaw::BadgeLost,
        Flaw::BadgeOfARead,
        Flaw::SetpointOfAnother,
        Flaw::EnterOfAll,
        Flaw::LostTwice,
        Flaw::AgainAnyway,
        Flaw::RequestAsReply,
    ];
    for flaw in seen {
        assert!(breaks_demand_3(flaw), "{flaw:?} is not found");
    }
    // The row holds with these: an older answer of the same READ is one that it could have had.
    for flaw in [Flaw::Nothing, Flaw::KeysAsBefore, Flaw::AllAsBefore, Flaw::TagRecordedAnew] {
        assert!(!breaks_demand_3(flaw), "{flaw:?}");
    }
}

/// The model's own frames and lists; the one that is wrong has a frame for a lost link, or another number.
struct Frames {
    of_lost: Option<Refusal>,
}

impl Wire for Frames {
    fn write_link_frame(&self, tables: &Tables, client: u32, target: u32, bytes: &mut [u8]) -> Result<usize, Refusal> {
        let lost = words::sound(tables) && {
            let store = words::store_of(tables);
            let row = store.clients.get(client as usize);
            row.and_then(|row| row.links.get(target as usize)) == Some(&Link::Lost)
        };
        let frame = match self.of_lost {
            Some(refusal) if lost => return Err(refusal),
            _ => frame_of(tables, client, target)?,
        };
        bytes.get_mut(..frame.len()).ok_or(Refusal::NoRoom)?.copy_from_slice(&frame);
        Ok(frame.len())
    }

    fn list_register(&self, tables: &Tables, list: &mut [u32]) -> Result<usize, Refusal> {
        words::register::list_register(tables, list)
    }
}

#[test]
fn frames_of_lost_links() {
    let wire = |cases: usize, of_lost: Option<Refusal>| wire_run::compare_by(&arguments("wire", cases), &Frames { of_lost });
    let passed = wire(100_000, None);
    assert!(passed.is_ok(), "{passed:?}");
    assert!(wire(10_000, Some(Refusal::NothingToLose)).is_err());
}

/// The model's own loads; the wrong one sends again what is lost where nothing else is left.
struct Loading {
    sends_again: bool,
}

impl Loads for Loading {
    fn advance(&self, seed: u32) -> u32 {
        model::load::advance(seed)
    }

    fn next_step(&self, tables: &Tables, seed: u32) -> LoadPick {
        words::load::next_step(tables, seed)
    }

    fn play(&self, tables: &mut Tables, seed: u32, length: u32, list: &mut [u32]) -> LoadEnd {
        let end = words::load::play_load(tables, seed, length, list);
        let lost = tables.links.chunks_exact(LINK_WORDS).position(|link| link[0] == LOST);
        if let Some(link) = lost.filter(|_| self.sends_again && end.answer == 0 && end.steps < length) {
            let (client, target) = ((link / LINKS_OF_CLIENT) as u32, (link % LINKS_OF_CLIENT) as u32);
            let _ = words::take(tables, &Step::Resend { client, target });
        }
        end
    }
}

#[test]
fn loads_leave_lost_links() {
    let loads = |sends_again: bool| load_run::compare_by(&arguments("load", 1000), &Loading { sends_again });
    let passed = loads(false);
    assert!(passed.is_ok(), "{passed:?}");
    assert!(loads(true).is_err());
}
