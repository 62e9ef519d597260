//! The steps on words and the steps on the model's own types are the same, and an opened run stays sound.

use model::{Refusal, Step};
use schedules::Generator;
use words::layout::*;
use words::{sound, store_of, take_mixed, Tables};

/// Opens a store in tables full of a word.
fn opened(opening: &Step, word: u32) -> Tables {
    let Step::Open { servers, clients, .. } = opening else {
        unreachable!("openings open");
    };
    let mut tables = Tables::filled(*servers as usize, *clients as usize, word);
    assert!(take_mixed(&mut tables, opening).is_ok());
    tables
}

#[test]
fn runs_on_words_are_the_models() {
    for seed in 0..60 {
        let mut generator = Generator::mixed(seed);
        let opening = generator.opening();
        let mut tables = opened(&opening, 0xDEAD_BEEF);
        generator.take(&opening).expect("a good opening");
        for _ in 0..150 {
            let step = generator.likely_step();
            let expected = generator.take(&step);
            assert_eq!(take_mixed(&mut tables, &step), expected);
            assert!(sound(&tables), "seed {seed}, {step:?}");
            assert_eq!(Some(store_of(&tables)), generator.player.store);
        }
    }
}

#[test]
fn an_opening_needs_only_the_lengths() {
    let opening = Step::Open { method: 2, servers: 3, clients: 2, setpoints: vec![1, 2, 3] };
    for which in 0..8 {
        let mut tables = Tables::filled(3, 2, 9);
        tables.all_mut()[which].pop();
        let before = tables.clone();
        assert_eq!(take_mixed(&mut tables, &opening), Err(Refusal::Unsound));
        assert_eq!(tables, before);
    }
    assert!(sound(&opened(&opening, 9)));
}

#[test]
fn single_words_that_break_soundness() {
    let opening = Step::Open { method: 2, servers: 2, clients: 2, setpoints: vec![1, 2] };
    let tables = opened(&opening, 0);
    for (place, word) in [(METHOD, 0), (METHOD, 4), (CLIENTS, 3), (STEP, 0), (HELD, 0), (HELD + 1, 257)] {
        let mut broken = tables.clone();
        broken.counts[place] = word;
        assert!(!sound(&broken), "counts[{place}] = {word}");
        assert_eq!(take_mixed(&mut broken, &Step::BeginRead { client: 0, mask: 1 }), Err(Refusal::Unsound));
    }
}

/// Tables whose log has tags 0 and 1: client 1 has written to server 0 and waits for its tag, client 0 is idle.
fn written(method: u32) -> Tables {
    let opening = Step::Open { method, servers: 2, clients: 2, setpoints: vec![1, 2] };
    let mut tables = opened(&opening, 0);
    let (client, mask) = (1, 1);
    let steps = [
        Step::BeginWrite { client, mask, badge: 7, setpoints: vec![8, 9] },
        Step::DeliverRequest { client, target: 0 },
        Step::DeliverReply { client, target: 0 },
        Step::DeliverRequest { client, target: 16 },
    ];
    steps.iter().for_each(|step| drop(take_mixed(&mut tables, step).expect("accepted")));
    tables
}

#[test]
fn kept_tags_are_within_the_log() {
    let words =
        [(0, 1, true), (0, 2, false), (1, 1, true), (1, 2, false), (1, u32::MAX, false), (2, 2, true), (15, u32::MAX, true)];
    for (server, tag, fine) in words {
        for (method, client) in [(1, 0), (1, 1), (2, 0), (2, 1), (3, 0), (3, 1)] {
            let mut tables = written(method);
            tables.clients[CLIENT_WORDS * client + TAGS + server] = tag;
            assert_eq!(sound(&tables), fine, "method {method}, client {client}, server {server}, tag {tag}");
        }
    }
}

/// Tables after these steps behind an opening of two servers and two clients, with room for a third server and a third client.
fn after(method: u32, steps: &[Step]) -> Tables {
    let opening = Step::Open { method, servers: 2, clients: 2, setpoints: vec![1, 2] };
    let mut tables = Tables::filled(3, 3, 70_000);
    for step in [&opening].into_iter().chain(steps) {
        take_mixed(&mut tables, step).expect("accepted");
    }
    assert!(sound(&tables));
    tables
}

/// Client 1 writes to server 0.
fn begun(badge: u16) -> Step {
    Step::BeginWrite { client: 1, mask: 1, badge, setpoints: vec![8, 9] }
}

fn request(client: u32, target: u32) -> Step {
    Step::DeliverRequest { client, target }
}

fn reply(client: u32, target: u32) -> Step {
    Step::DeliverReply { client, target }
}

/// Client 0 reads server 1.
fn reading() -> Step {
    Step::BeginRead { client: 0, mask: 2 }
}

/// Whether each word that a place can hold is fine there: below 65,536 always, and from there on where the word is free.
fn holds(tables: &Tables, table: usize, place: usize, free: bool, what: &str) {
    for word in [0, 7, 255, 256, 65_535, 65_536, 65_537, 65_543, 1 << 31, u32::MAX] {
        let mut changed = tables.clone();
        changed.all_mut()[table][place] = word;
        assert_eq!(sound(&changed), free || word < BADGES_BELOW, "{what}: {word}");
    }
}

const IN_CLIENTS: usize = 1;
const IN_LINKS: usize = 2;
const IN_VALUES: usize = 4;
const IN_WRITES: usize = 6;
const IN_READS: usize = 7;

#[test]
fn badges_of_versions_are_below_65536() {
    for method in 1..=3 {
        let tables = after(method, &[begun(7), request(1, 0)]);
        assert_eq!(tables.value(0, 1), [7, 8]);
        assert_eq!(tables.value(0, 0), [0, 1]);
        // The first version's badge is any badge, as the others' are.
        for (server, place, free) in
            [(0, 0, false), (0, 1, false), (0, 2, true), (0, 255, true), (1, 0, false), (1, 1, true), (2, 0, true)]
        {
            holds(&tables, IN_VALUES, value_place(server, place), free, &format!("server {server}, version {place}"));
        }
    }
}

#[test]
fn badges_of_clients_are_below_65536() {
    for method in 1..=3 {
        let idle = after(method, &[begun(7), request(1, 0), reply(1, 0), request(1, 16), reply(1, 16)]);
        for tables in [idle, after(method, &[begun(7), reading()])] {
            for (client, server, free) in
                [(0, 0, false), (0, 1, false), (1, 0, false), (1, 1, false), (0, 2, true), (1, 15, true)]
            {
                let place = CLIENT_WORDS * client + BADGES + server;
                holds(&tables, IN_CLIENTS, place, free, &format!("client {client}, server {server}"));
            }
        }
    }
}

/// In set requests and got replies; elsewhere the word is free.
#[test]
fn badges_on_links_are_below_65536() {
    let cases = [
        ("a set request", after(2, &[begun(7)]), 1, 0, false),
        ("an empty link", after(2, &[begun(7)]), 1, 1, true),
        ("set done", after(2, &[begun(7), request(1, 0)]), 1, 0, true),
        ("an enter request", after(2, &[begun(7), request(1, 0), reply(1, 0)]), 1, 16, true),
        ("entered", after(2, &[begun(7), request(1, 0), reply(1, 0), request(1, 16)]), 1, 16, true),
        ("which keys", after(2, &[reading()]), 0, 16, true),
        ("keys", after(2, &[reading(), request(0, 16)]), 0, 16, true),
        ("a get request", after(2, &[reading(), request(0, 16), reply(0, 16)]), 0, 1, true),
        ("got", after(2, &[reading(), request(0, 16), reply(0, 16), request(0, 1)]), 0, 1, false),
        ("got under A", after(1, &[reading(), request(0, 1)]), 0, 1, false),
        ("get all", after(3, &[reading()]), 0, 1, true),
        ("all", after(3, &[reading(), request(0, 1)]), 0, 1, true),
        ("get log", after(3, &[reading()]), 0, 16, true),
        ("log", after(3, &[reading(), request(0, 16)]), 0, 16, true),
        ("a link of a client that is not there", after(2, &[]), 2, 0, true),
    ];
    for (what, tables, client, target, free) in cases {
        holds(&tables, IN_LINKS, link_place(client, target) + LINK_BADGE, free, what);
    }
}

#[test]
fn badges_of_write_records_are_below_65536() {
    let tables = after(2, &[begun(65_535), reading()]);
    assert_eq!(tables.write(0)[RECORD_BADGE], 65_535);
    assert_eq!(tables.read(0)[RECORD_BADGE], 0);
    for (table, place, free) in
        [(IN_WRITES, 0, false), (IN_WRITES, 1, true), (IN_WRITES, 254, true), (IN_READS, 0, true), (IN_READS, 1, true)]
    {
        holds(&tables, table, RECORD_WORDS * place + RECORD_BADGE, free, &format!("table {table}, record {place}"));
    }
}

/// What a READ's record has in the place of a badge stays, and a link that was used is four zeros behind it.
#[test]
fn free_words_in_the_places_of_badges_are_kept() {
    let mut tables = after(1, &[reading()]);
    let (record, link) = (RECORD_BADGE, link_place(0, 1));
    tables.reads[record] = u32::MAX;
    tables.links[link + LINK_BADGE] = u32::MAX;
    tables.clients[BADGES + 2] = u32::MAX;
    assert!(take_mixed(&mut tables, &request(0, 1)).is_ok());
    assert_eq!(tables.link(0, 1), [REPLY, 0, 2, 0]);
    assert!(take_mixed(&mut tables, &reply(0, 1)).is_ok());
    assert_eq!((tables.link(0, 1), tables.reads[record]), (&[NOTHING, 0, 0, 0][..], u32::MAX));
    assert_eq!(tables.clients[BADGES..BADGES + 3], [0, 0, u32::MAX]);
}

/// An opening gives the first versions badge 0, and leaves those behind them as they were.
#[test]
fn an_opening_has_badge_0() {
    let tables = after(3, &[]);
    for server in 0..2 {
        assert_eq!(tables.value(server, 0), [0, 1 + server as u32]);
        assert_eq!(tables.value(server, 1), [70_000, 70_000]);
    }
    assert!(tables.clients.iter().chain(&tables.links).all(|&word| word == 0));
}

#[test]
fn what_the_tables_do_not_use_is_free() {
    let opening = Step::Open { method: 3, servers: 2, clients: 1, setpoints: vec![1, 2] };
    let mut tables = opened(&opening, 7);
    tables.counts[HELD + 2] = 999;
    tables.links[1] = 5;
    assert!(sound(&tables));
}
