//! Loads on tables: the rows and the words are those of the model's load, step by step, and what is refused leaves all as before.

use model::Step;
use words::layout::{CLIENTS, STEP};
use words::load::{next_step, play_load, LoadEnd, LoadPick, NO_STEP, STEP_WORDS};
use words::{sound, store_of, take, take_mixed, Tables};

fn opened(method: u32, servers: u32, clients: u32) -> Tables {
    let mut tables = Tables::filled(servers as usize, clients as usize, 0xDEAD_BEEF);
    take(&mut tables, &Step::Open { method, servers, clients, setpoints: vec![0; servers as usize] }).expect("a good opening");
    tables
}

/// The step of a row, for a press of k stations.
fn step_of(row: &[u32], servers: usize) -> Step {
    match *row {
        [0, client, mask, setpoint] => Step::BeginWrite { client, mask, badge: 0, setpoints: vec![setpoint; servers] },
        [1, client, mask, 0] => Step::BeginRead { client, mask },
        [2, client, target, 0] => Step::DeliverRequest { client, target },
        [3, client, target, 0] => Step::DeliverReply { client, target },
        _ => panic!("{row:?} is no row"),
    }
}

#[test]
fn the_worked_examples_rows() {
    let rows = [
        [0, 0, 3, 1],
        [1, 1, 3, 0],
        [2, 1, 16, 0],
        [3, 1, 16, 0],
        [2, 0, 1, 0],
        [2, 1, 1, 0],
        [2, 1, 0, 0],
        [3, 1, 0, 0],
        [3, 0, 1, 0],
        [3, 1, 1, 0],
        [2, 0, 0, 0],
        [3, 0, 0, 0],
    ];
    let mut list = vec![7; 50];
    assert_eq!(play_load(&mut opened(2, 2, 2), 0, 12, &mut list).steps, 12);
    assert_eq!(list, [rows.as_flattened(), &[7, 7]].concat());
}

#[test]
fn a_load_leaves_what_its_steps_leave() {
    for (method, servers, clients, seed) in [(2, 2, 3, 1), (2, 3, 2, 2), (3, 2, 2, 3)] {
        let (mut tables, mut one_by_one) = (opened(method, servers, clients), opened(method, servers, clients));
        let mut list = vec![9; STEP_WORDS * 300 + 5];
        let end = play_load(&mut tables, seed, 300, &mut list);
        assert_eq!((end.answer, end.steps), (0, 300));
        let mut seed = seed;
        for row in list[..STEP_WORDS * 300].chunks_exact(STEP_WORDS) {
            let pick = next_step(&one_by_one, seed);
            assert_eq!([pick.answer, pick.kind, pick.client, pick.second, pick.setpoint], [0, row[0], row[1], row[2], row[3]]);
            assert!(take(&mut one_by_one, &step_of(row, servers as usize)).is_ok());
            seed = pick.seed;
        }
        assert_eq!(one_by_one, tables);
        assert_eq!(end.seed, seed);
        assert_eq!(list[STEP_WORDS * 300..], [9; 5]);
    }
}

/// Under method 1 nothing begins: a load delivers what the former rules began, and then no step is acceptable.
#[test]
fn a_load_under_method_1_delivers_to_the_end() {
    let mut tables = Tables::filled(2, 2, 0xDEAD_BEEF);
    for step in [
        Step::Open { method: 1, servers: 2, clients: 2, setpoints: vec![1, 2] },
        Step::BeginWrite { client: 1, mask: 3, badge: 7, setpoints: vec![8, 9] },
        Step::BeginRead { client: 0, mask: 1 },
    ] {
        take_mixed(&mut tables, &step).expect("accepted");
    }
    let mut list = vec![9; STEP_WORDS * 20];
    let end = play_load(&mut tables, 1, 20, &mut list);
    // Of the WRITE 2 steps for each station and for the head, of the READ 2.
    assert_eq!((end.answer, end.steps), (0, 8));
    assert!(list[..STEP_WORDS * 8].chunks_exact(STEP_WORDS).all(|row| row[0] >= 2));
    assert_eq!(list[STEP_WORDS * 8..], [9; STEP_WORDS * 12]);
    assert_eq!(next_step(&tables, end.seed).answer, NO_STEP);
    assert!(tables.links.chunks_exact(4).all(|link| link[0] == 0));
}

/// What stands in a link that holds nothing is free, and a link that was used since is four zeros.
#[test]
fn a_link_that_is_empty_again_is_written() {
    let mut tables = opened(2, 1, 1);
    let (mut seed, mut list) = (4, vec![0; 4000]);
    tables.links[1..4].fill(70_000);
    assert!(sound(&tables));
    while tables.links[0] == 0 {
        seed = play_load(&mut tables, seed, 1, &mut list).seed;
    }
    while tables.links[0] != 0 {
        seed = play_load(&mut tables, seed, 1, &mut list).seed;
    }
    assert_eq!(tables.links[..4], [0, 0, 0, 0]);
    let mut at_once = opened(2, 1, 1);
    at_once.links[1..4].fill(70_000);
    let steps = tables.counts[STEP] - 1;
    play_load(&mut at_once, 4, steps, &mut list);
    assert_eq!(at_once, tables);
}

#[test]
fn refused_with_all_as_before() {
    let mut broken = opened(2, 2, 2);
    broken.counts[CLIENTS] = 3;
    let mut list = vec![1; 39];
    // Of 2 and 12 the lower counts.
    for (tables, length, answer) in [
        (&broken, 10, 2),
        (&broken, 0, 2),
        (&opened(2, 2, 2), 10, 12),
        (&opened(2, 2, 2), 1 << 30, 12),
        (&opened(2, 2, 2), u32::MAX, 12),
    ] {
        let mut after = tables.clone();
        assert_eq!(play_load(&mut after, 5, length, &mut list), LoadEnd { answer, steps: 0, seed: 5 });
        assert_eq!((&after, &list), (tables, &vec![1; 39]));
    }
    assert_eq!(next_step(&broken, 5), LoadPick { answer: 2, seed: 5, kind: 0, client: 0, second: 0, setpoint: 0 });
}

#[test]
fn nothing_acceptable_and_length_0() {
    let mut tables = opened(2, 1, 1);
    assert_eq!(play_load(&mut tables, 6, 0, &mut []), LoadEnd { answer: 0, steps: 0, seed: 6 });
    tables.counts[STEP] = u32::MAX;
    let before = tables.clone();
    assert_eq!(next_step(&tables, 6), LoadPick { answer: NO_STEP, seed: 6, kind: 0, client: 0, second: 0, setpoint: 0 });
    assert_eq!(play_load(&mut tables, 6, 2, &mut [3; 8]), LoadEnd { answer: 0, steps: 0, seed: 6 });
    assert_eq!(tables, before);
    assert!(store_of(&tables).acceptable().is_empty());
}
