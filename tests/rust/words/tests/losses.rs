//! Lost links, and what a panel keeps to send again, in the words of the tables.

use model::{Refusal, Step};
use words::layout::*;
use words::{sound, take_mixed, Tables};

/// Tables after these steps behind an opening of two servers and two clients, with room for a third server and a third client, full of
/// words that are no badge and no key.
fn after(method: u32, steps: &[Step]) -> Tables {
    let opening = Step::Open { method, servers: 2, clients: 2, setpoints: vec![1, 2] };
    let mut tables = Tables::filled(3, 3, 70_000);
    for step in [&opening].into_iter().chain(steps) {
        take_mixed(&mut tables, step).expect("accepted");
    }
    assert!(sound(&tables));
    tables
}

/// Client 1 writes to server 0.
fn writing() -> Step {
    Step::BeginWrite { client: 1, mask: 1, badge: 7, setpoints: vec![8, 9] }
}

/// Client 0 reads server 1.
fn reading() -> Step {
    Step::BeginRead { client: 0, mask: 2 }
}

fn request(client: u32, target: u32) -> Step {
    Step::DeliverRequest { client, target }
}

fn reply(client: u32, target: u32) -> Step {
    Step::DeliverReply { client, target }
}

fn lose(client: u32, target: u32) -> Step {
    Step::Lose { client, target }
}

fn resend(client: u32, target: u32) -> Step {
    Step::Resend { client, target }
}

/// A press in each state: its name, the tables, the client that is in that state, and the targets that it waits for.
fn states() -> Vec<(&'static str, Tables, usize, &'static [usize])> {
    let set = [writing()];
    let entered = [writing(), request(1, 0), reply(1, 0)];
    let asked = [reading(), request(0, 16), reply(0, 16)];
    vec![
        ("idle", after(2, &[]), 0, &[]),
        ("1", after(2, &set), 1, &[0]),
        ("2", after(2, &entered), 1, &[16]),
        ("3", after(2, &[reading()]), 0, &[16]),
        ("4 under A", after(1, &[reading()]), 0, &[1]),
        ("4 under B", after(2, &asked), 0, &[1]),
        ("5", after(3, &[reading()]), 0, &[1, 16]),
    ]
}

#[test]
fn a_lost_link_is_sound_where_the_panel_waits() {
    for (state, tables, client, waiting) in states() {
        for target in 0..LINKS_OF_CLIENT {
            for (kind, known) in
                [(LOST, true), (4, false), (5, false), (255, false), (259, false), (65_539, false), (u32::MAX, false)]
            {
                let mut changed = tables.clone();
                let place = link_place(client, target);
                changed.links[place] = kind;
                assert_eq!(sound(&changed), known && waiting.contains(&target), "state {state}, target {target}, kind {kind}");
                // What stands behind the kind of a lost link is free.
                changed.links[place + 1..place + LINK_WORDS].fill(u32::MAX);
                assert_eq!(sound(&changed), known && waiting.contains(&target), "state {state}, target {target}, kind {kind}");
            }
        }
        // A client that is not there has no links.
        let mut changed = tables.clone();
        changed.links[link_place(2, 0)] = 4;
        assert!(sound(&changed));
    }
}

/// A link whose reply is in can be lost as far as the words go, but under C what came is then not there.
#[test]
fn a_lost_link_that_had_arrived() {
    let both = Step::BeginRead { client: 0, mask: 3 };
    for (method, fine) in [(1, true), (3, false)] {
        let mut tables = after(method, &[both.clone(), request(0, 1), reply(0, 1)]);
        assert_eq!(tables.link(0, 1), [NOTHING, 0, 0, 0]);
        tables.links[link_place(0, 1)] = LOST;
        assert_eq!(sound(&tables), fine, "method {method}");
        tables.clients[RECEIVED + 1] = 0;
        assert!(sound(&tables), "method {method}");
    }
}

/// "a busy panel has a link not empty": a lost one is not.
#[test]
fn all_links_lost() {
    for (state, tables, client, waiting) in states().into_iter().filter(|(.., waiting)| !waiting.is_empty()) {
        let (mut lost, mut empty) = (tables.clone(), tables);
        for &target in waiting {
            assert!(take_mixed(&mut lost, &lose(client as u32, target as u32)).is_ok(), "state {state}");
            assert_eq!(lost.link(client, target), [LOST, 0, 0, 0]);
            empty.links[link_place(client, target)] = NOTHING;
        }
        assert!(sound(&lost) && !sound(&empty), "state {state}");
    }
}

#[test]
fn the_kept_badge_has_16_bits() {
    for (state, tables, ..) in states() {
        for client in 0..3 {
            for word in [0, 7, 255, 256, 65_535, 65_536, 65_543, 1 << 31, u32::MAX] {
                let mut changed = tables.clone();
                changed.clients[CLIENT_WORDS * client + WRITE_BADGE] = word;
                assert_eq!(sound(&changed), client == 2 || word < 65_536, "state {state}, client {client}, {word}");
            }
        }
    }
}

/// "in state 4, the keys it asks for": in their range for the stations that are asked; elsewhere the words are free.
#[test]
fn kept_keys_are_in_their_range() {
    let words = [
        (0, true),
        (256, true),
        (257, true),
        (255 * 256 + 1, true),
        (1, false),
        (255, false),
        (258, false),
        (256 + 16, false),
        (256 + 255, false),
        (255 * 256 + 2, false),
        (65_536, false),
        (65_536 + 256, false),
        (u32::MAX, false),
    ];
    for (state, tables, reader, _) in states() {
        for client in 0..3 {
            for server in 0..16 {
                let looked_at = state.starts_with('4') && client == reader && server == 1;
                for (word, key) in words {
                    let mut changed = tables.clone();
                    changed.clients[CLIENT_WORDS * client + ASKED + server] = word;
                    assert_eq!(sound(&changed), key || !looked_at, "state {state}, client {client}, server {server}, {word}");
                }
            }
        }
    }
}

/// What is sent again is what the row gives, and every other word stays.
#[test]
fn the_words_of_what_is_sent_again() {
    // Whatever stood on the link, from the row: count 1 of client 1, badge 7, setpoint 8, mask 1; the opening's key.
    let rows = [
        ("1", 1, 0, [REQUEST, 257, 8, 7]),
        ("2", 1, 16, [REQUEST, 257, 1, 0]),
        ("3", 0, 16, [REQUEST, 0, 0, 0]),
        ("4 under A", 0, 1, [REQUEST, 0, 0, 0]),
        ("4 under B", 0, 1, [REQUEST, 0, 0, 0]),
        ("5", 0, 1, [REQUEST, 0, 0, 0]),
        ("5", 0, 16, [REQUEST, 0, 0, 0]),
    ];
    for (state, client, target, words) in rows {
        let (_, mut tables, ..) = states().into_iter().find(|(name, ..)| *name == state).expect("a state");
        let place = link_place(client, target);
        tables.links[place..place + LINK_WORDS].copy_from_slice(&[LOST, 9, 9, 9]);
        let mut expected = tables.clone();
        expected.links[place..place + LINK_WORDS].copy_from_slice(&words);
        expected.counts[STEP] += 1;
        assert!(take_mixed(&mut tables, &resend(client as u32, target as u32)).is_ok(), "state {state}");
        assert_eq!(tables, expected, "state {state}");
    }
}

/// The row alone decides: with other words there, others are sent.
#[test]
fn the_row_decides_what_is_sent_again() {
    let mut tables = after(2, &[writing(), lose(1, 0)]);
    let row = CLIENT_WORDS;
    (tables.clients[row + WRITE_BADGE], tables.clients[row + SETPOINTS]) = (65_535, u32::MAX);
    assert!(take_mixed(&mut tables, &resend(1, 0)).is_ok());
    assert_eq!(tables.link(1, 0), [REQUEST, 257, u32::MAX, 65_535]);

    let mut tables = after(1, &[reading(), lose(0, 1)]);
    tables.clients[ASKED + 1] = 257;
    assert!(take_mixed(&mut tables, &resend(0, 1)).is_ok());
    assert_eq!(tables.link(0, 1), [REQUEST, 257, 0, 0]);
    assert_eq!(take_mixed(&mut tables, &request(0, 1)), Err(Refusal::FullOrNotHeld));
}

/// A begin of a WRITE keeps its badge, and gets keep their keys; what else stands in those words stays.
#[test]
fn what_a_panel_keeps() {
    let tables = after(2, &[writing()]);
    assert_eq!(tables.client(1)[WRITE_BADGE], 7);
    assert_eq!(tables.client(0)[WRITE_BADGE], 0);
    for method in 1..=3 {
        let mut tables = after(method, &[writing(), request(1, 0), reply(1, 0), request(1, 16), reply(1, 16)]);
        tables.clients[ASKED..ASKED + 16].fill(12_345);
        let both = Step::BeginRead { client: 0, mask: 3 };
        for step in [vec![both], if method == 2 { vec![request(0, 16), reply(0, 16)] } else { vec![] }].concat() {
            assert!(take_mixed(&mut tables, &step).is_ok());
        }
        let mut asked = [12_345; 16];
        if method != 3 {
            asked[..2].copy_from_slice(&[257, 0]);
        }
        assert_eq!(tables.client(0)[ASKED..], asked, "method {method}");
    }
    assert_eq!([CLIENT_WORDS, WRITE_BADGE, ASKED, ASKED + 16], [87, 70, 71, 87]);
}

/// A set and an enter whose key is there leave their table, its count and the record as they are.
#[test]
fn nothing_is_stored_twice() {
    let mut tables = after(2, &[writing(), request(1, 0), lose(1, 0), resend(1, 0)]);
    let mut expected = tables.clone();
    expected.links[link_place(1, 0)..][..LINK_WORDS].copy_from_slice(&[REPLY, 0, 0, 0]);
    expected.counts[STEP] += 1;
    assert!(take_mixed(&mut tables, &request(1, 0)).is_ok());
    assert_eq!(tables, expected);
    for step in [reply(1, 0), request(1, 16), lose(1, 16), resend(1, 16)] {
        assert!(take_mixed(&mut tables, &step).is_ok());
    }
    // The record's tag is another than the log has, and stays so.
    tables.writes[2] = 0;
    let mut expected = tables.clone();
    expected.links[link_place(1, 16)..][..LINK_WORDS].copy_from_slice(&[REPLY, 0, 1, 0]);
    expected.counts[STEP] += 1;
    assert!(take_mixed(&mut tables, &request(1, 16)).is_ok());
    assert_eq!(tables, expected);
}

/// Tables that are not sound are refused by 2, ahead of all else.
#[test]
fn refused_by_2() {
    let mut tables = after(2, &[writing()]);
    tables.clients[WRITE_BADGE] = 65_536;
    let before = tables.clone();
    for step in [lose(1, 0), resend(1, 0), lose(9, 9), resend(9, 9)] {
        assert_eq!(take_mixed(&mut tables, &step), Err(Refusal::Unsound));
        assert_eq!(tables, before);
    }
}
