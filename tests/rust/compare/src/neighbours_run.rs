//! Document 02, E9: "Two neighbouring accepted steps of a schedule that deliver requests at different targets must give exactly equal
//! tables in either order, and both orders must be accepted." Random runs with losses are played twice, neighbouring requests in one order
//! and in the other, and more pairs of requests on copies: answers and every word of the tables are alike, and those of the model.

use crate::arguments::Arguments;
use crate::losses::{held, repeated};
use crate::stores::{differing_from, fresh_tables, shown};
use crate::tables_run::Subject;
use crate::tally::Tally;
use crate::Report;
use ffi::StoreLibrary;
use model::answer::printed;
use model::{Answer, Link, Method, Outcome, Step, Store};
use schedules::{Generator, Random};
use words::Tables;

/// In a run of so many pairs each of those below is to occur.
const MANY: usize = 10_000;
/// Every two kinds of request that can wait at different targets, by the method and by whether one panel sent both.
#[rustfmt::skip]
const DUE: [&str; 25] = [
    "A set and set of one panel", "A set and set of two panels", "A enter and set of two panels", "A get and set of two panels",
    "A enter and get of two panels", "A get and get of one panel",
    "B set and set of one panel", "B set and set of two panels", "B enter and set of two panels", "B get and set of two panels",
    "B enter and get of two panels", "B get and get of one panel", "B get and get of two panels", "B set and which keys of two panels",
    "B get and which keys of two panels",
    "C set and set of one panel", "C set and set of two panels", "C enter and set of two panels", "C get all and set of two panels",
    "C enter and get all of two panels", "C get all and get all of one panel", "C get all and get all of two panels",
    "C get log and set of two panels", "C get all and get log of one panel", "C get all and get log of two panels",
];
/// What losses bring to such a pair, by the method; and behind it, the rest of a run.
#[rustfmt::skip]
const DUE_OF_LOSSES: [&str; 15] = [
    "A a set stored before", "A an enter entered before", "A beside a lost link", "A behind a loss", "A followed by a loss",
    "B a set stored before", "B an enter entered before", "B beside a lost link", "B behind a loss", "B followed by a loss",
    "C a set stored before", "C an enter entered before", "C beside a lost link", "C behind a loss", "C followed by a loss",
];

/// How a report names what was to be found.
const OTHER_ORDER: &str = "the other order";
const MODEL: &str = "the model's";

/// So many pairs are tried on copies at each place of a run, where there are any.
const TRIED: usize = 2;

/// What is asked of the subject: in tests also that its own two orders alone show what is wrong.
#[derive(Clone, Copy, PartialEq)]
pub enum Asked {
    #[cfg_attr(not(test), allow(dead_code))]
    EqualOrders,
    EqualOrdersAsTheModel,
}

/// Makes what is compared: one for each order, so that what one of them remembers the other does not know.
pub type Opening<'a> = &'a dyn Fn() -> Box<dyn Subject>;

pub fn compare(arguments: &Arguments) -> Report {
    let library = StoreLibrary::linked().ok_or("libstore_exports.a is not linked: run tests/rust/build-store")?;
    compare_by(arguments, Asked::EqualOrdersAsTheModel, &|| Box::new(library))
}

/// Compares `cases` pairs, of any subject.
pub fn compare_by(arguments: &Arguments, asked: Asked, opening: Opening) -> Report {
    let (mut counts, mut runs) = (Counts::default(), 0);
    while counts.pairs < arguments.cases {
        let seed = arguments.seed_of(runs);
        let played = Run::opened(seed, asked, [opening(), opening()]).and_then(|mut run| run.play(&mut counts));
        played.map_err(|difference| format!("run {seed}: {difference}"))?;
        runs += 1;
    }
    if arguments.cases >= MANY {
        counts.kinds.require(&DUE)?;
        counts.losses.require(&DUE_OF_LOSSES)?;
    }
    let Counts { pairs, played_on, steps, kinds, losses } = counts;
    Ok(format!("{pairs} pairs in {runs} runs, {played_on} of them with the rest of the run, {steps} steps; {kinds}; {losses}"))
}

/// What was compared so far.
#[derive(Default)]
struct Counts {
    pairs: usize,
    /// Pairs that a run goes on behind, and the steps of the runs.
    played_on: usize,
    steps: usize,
    kinds: Tally,
    losses: Tally,
}

/// A link that holds a request: client and target.
type Waiting = (usize, usize);

fn delivery((client, target): Waiting) -> Step {
    Step::DeliverRequest { client: client as u32, target: target as u32 }
}

/// One run in two orders.
struct Run {
    asked: Asked,
    generator: Generator,
    random: Random,
    subjects: [Box<dyn Subject>; 2],
    tables: [Tables; 2],
    /// As the model leaves them.
    expected: Tables,
    /// Whether something was lost so far, and whether a pair was in two orders so far.
    lost: bool,
    swapped: bool,
}

impl Run {
    /// The opening, in tables that hold anything.
    fn opened(seed: u64, asked: Asked, subjects: [Box<dyn Subject>; 2]) -> Result<Run, String> {
        let (mut generator, mut random) = (Generator::mixed(seed), Random::new(!seed));
        let opening = generator.opening();
        let expected = fresh_tables(&opening, &mut random);
        let tables = [expected.clone(), expected.clone()];
        let mut run = Run { asked, generator, random, subjects, tables, expected, lost: false, swapped: false };
        run.take(&opening)?;
        Ok(run)
    }

    fn store(&self) -> &Store {
        self.generator.player.store.as_ref().expect("opened")
    }

    fn play(&mut self, counts: &mut Counts) -> Result<(), String> {
        for _ in 0..self.random.within(20, 200) {
            for _ in 0..TRIED {
                if let Some(pair) = self.pair() {
                    self.count(pair, counts);
                    self.try_on_copies(pair)?;
                }
            }
            match self.pair().filter(|_| self.random.chance(1, 3)) {
                Some(pair) => {
                    self.count(pair, counts);
                    counts.played_on += 1;
                    counts.steps += 2;
                    self.take_in_two_orders(pair)?;
                }
                None => {
                    let step = self.generator.likely_step();
                    counts.steps += 1;
                    self.take(&step)?;
                    self.count_loss(&step, counts);
                }
            }
        }
        Ok(())
    }

    /// Two requests that wait at different targets, where there are any.
    fn pair(&mut self) -> Option<[Waiting; 2]> {
        let waiting = requests(self.store());
        if waiting.is_empty() {
            return None;
        }
        let one = self.random.pick(&waiting);
        let others: Vec<Waiting> = waiting.into_iter().filter(|&(_, target)| target != one.1).collect();
        (!others.is_empty()).then(|| [one, self.random.pick(&others)])
    }

    /// Any step, in both orders alike. An opening by method 1 is refused, and so is a begin on such tables: then they go on by the former
    /// rules.
    fn take(&mut self, step: &Step) -> Result<(), String> {
        let only_formerly = self.generator.player.only_formerly(step);
        self.compare(step)?;
        let outcome = self.generator.take(step);
        if only_formerly {
            let [one, other] = &mut self.tables;
            for tables in [one, other, &mut self.expected] {
                assert_eq!(words::take_mixed(tables, step), outcome, "the former rules on a store and on words");
            }
        }
        Ok(())
    }

    /// A step by today's rules: its answer and the tables behind it.
    fn compare(&mut self, step: &Step) -> Result<(), String> {
        let expected = words::take(&mut self.expected, step);
        let [one, other] = [0, 1].map(|order| self.subjects[order].take(&mut self.tables[order], step));
        let [tables, other_tables] = &self.tables;
        let found = same((&one, tables), (&other, other_tables), OTHER_ORDER)
            .and_then(|()| self.as_the_model(|| same((&one, tables), (&expected, &self.expected), MODEL)));
        found.map_err(|found| format!("{step:?}: {found}; behind it: {}", shown(&self.expected)))
    }

    /// What is asked beside equal orders.
    fn as_the_model(&self, judge: impl FnOnce() -> Result<(), String>) -> Result<(), String> {
        match self.asked {
            Asked::EqualOrders => Ok(()),
            Asked::EqualOrdersAsTheModel => judge(),
        }
    }

    /// Both orders on copies, by the public steps and by those that check no tables. None of it stays.
    fn try_on_copies(&self, pair: [Waiting; 2]) -> Result<(), String> {
        let expected = self.expected_of(pair)?;
        let (subject, before) = (&self.subjects[0], &self.tables[0]);
        let [one, other] = orders(pair).map(|steps| taken(before, &steps, |tables, step| subject.take(tables, step)));
        self.judge(pair, [&one, &other], &expected)?;
        let [one, other] = orders(pair).map(|steps| taken(before, &steps, |tables, step| subject.take_sound(tables, step)));
        self.judge(pair, [&one, &other], &expected)
    }

    /// The run goes on behind the pair, each of the two behind its own order.
    fn take_in_two_orders(&mut self, pair: [Waiting; 2]) -> Result<(), String> {
        let expected = self.expected_of(pair)?;
        let [forth, back] = orders(pair);
        let one = taken(&self.tables[0], &forth, |tables, step| self.subjects[0].take(tables, step));
        let other = taken(&self.tables[1], &back, |tables, step| self.subjects[1].take(tables, step));
        self.judge(pair, [&one, &other], &expected)?;
        for step in &forth {
            self.generator.take(step).expect("the model accepts it");
        }
        self.swapped = true;
        self.expected = expected.tables;
        self.tables = [one.tables, other.tables];
        Ok(())
    }

    /// What the model leaves, which is the same in either order.
    fn expected_of(&self, pair: [Waiting; 2]) -> Result<Taken, String> {
        let [one, other] = orders(pair).map(|steps| taken(&self.expected, &steps, words::take));
        let equal = one.accepted() && other.accepted() && one.tables == other.tables;
        if equal {
            Ok(one)
        } else {
            Err(format!("the model's orders differ at {pair:?}: {}", shown(&self.expected)))
        }
    }

    /// Both orders are accepted and leave equal words, and those are the expected ones. Where only equal orders are asked, the subject may
    /// have come to tables on which it accepts neither.
    fn judge(&self, pair: [Waiting; 2], [one, other]: [&Taken; 2], expected: &Taken) -> Result<(), String> {
        let judged = match [one.accepted(), other.accepted()] {
            [true, true] => differ(&one.tables, &other.tables, OTHER_ORDER)
                .and_then(|()| self.as_the_model(|| differ(&one.tables, &expected.tables, MODEL))),
            [false, false] => self.as_the_model(|| Err(format!("{}, which the model accepts", one.said()))),
            _ => Err(format!("{}, in {OTHER_ORDER} {}", one.said(), other.said())),
        };
        judged.map_err(|found| format!("requests {pair:?}: {found}; before: {}", shown(&self.expected)))
    }

    /// What the pair is.
    fn count(&self, pair: [Waiting; 2], counts: &mut Counts) {
        let store = self.store();
        let method = letter(store.method);
        counts.pairs += 1;
        counts.kinds.count(&format!("{method} {}", kinds(store, pair)));
        for (client, target) in pair {
            let again = repeated(store, &store.clients[client].links[target], target);
            again.iter().for_each(|name| counts.losses.count(&format!("{method} {name}")));
        }
        if store.clients.iter().any(|client| client.links.contains(&Link::Lost)) {
            counts.losses.count(&format!("{method} beside a lost link"));
        }
        if self.lost {
            counts.losses.count(&format!("{method} behind a loss"));
        }
    }

    /// A loss in a run that was in two orders before.
    fn count_loss(&mut self, step: &Step, counts: &mut Counts) {
        let loss = matches!(step, Step::Lose { .. });
        self.lost |= loss;
        if loss && self.swapped {
            counts.losses.count(&format!("{} followed by a loss", letter(self.store().method)));
        }
    }
}

/// Two steps one after the other: their answers, and the tables behind them.
struct Taken {
    outcomes: [Outcome; 2],
    tables: Tables,
}

fn taken(before: &Tables, steps: &[Step; 2], take: impl Fn(&mut Tables, &Step) -> Outcome) -> Taken {
    let mut tables = before.clone();
    let outcomes = steps.each_ref().map(|step| take(&mut tables, step));
    Taken { outcomes, tables }
}

impl Taken {
    fn accepted(&self) -> bool {
        self.outcomes.iter().all(|outcome| *outcome == Ok(Answer::Ok))
    }

    fn said(&self) -> String {
        self.outcomes.each_ref().map(printed).join(" and ")
    }
}

/// The two deliveries of a pair in one order, and in the other.
fn orders([one, other]: [Waiting; 2]) -> [[Step; 2]; 2] {
    [[one, other], [other, one]].map(|links| links.map(delivery))
}

/// Fails where a word differs from the other tables, which are named so.
fn differ(tables: &Tables, other: &Tables, named: &str) -> Result<(), String> {
    if tables == other {
        Ok(())
    } else {
        Err(differing_from(tables, other, named))
    }
}

/// Equal answers and equal words.
fn same(one: (&Outcome, &Tables), other: (&Outcome, &Tables), named: &str) -> Result<(), String> {
    if one.0 != other.0 {
        return Err(format!("{}, {named} {}", printed(one.0), printed(other.0)));
    }
    differ(one.1, other.1, named)
}

/// The links that hold requests.
fn requests(store: &Store) -> Vec<Waiting> {
    let links = |client: usize| (0..store.clients[client].links.len()).map(move |target| (client, target));
    let holds = |&(client, target): &Waiting| matches!(store.clients[client].links[target], Link::Request(_));
    (0..store.clients.len()).flat_map(links).filter(holds).collect()
}

/// The kinds of a pair in the order of the alphabet, and whether one panel sent both.
fn kinds(store: &Store, pair: [Waiting; 2]) -> String {
    let [(one, _), (other, _)] = pair;
    let mut kinds = pair.map(|(client, target)| held(&store.clients[client].links[target]));
    kinds.sort();
    let panels = if one == other { "one panel" } else { "two panels" };
    format!("{} and {} of {panels}", kinds[0], kinds[1])
}

fn letter(method: Method) -> char {
    match method {
        Method::A => 'A',
        Method::B => 'B',
        Method::C => 'C',
    }
}
