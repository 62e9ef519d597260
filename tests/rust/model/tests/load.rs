//! Loads: document 02's numbers, the numbering, which step is picked, and where a load ends.

use model::load::{advance, numbered, place, Numbered, Pick, Played};
use model::{State, Step, Store};

fn opened(method: u32, servers: u32, clients: u32) -> Store {
    Store::open_mixed(method, servers, clients, &vec![0; servers as usize]).expect("a good opening")
}

/// Plays a load and gives its steps too.
fn played(store: &mut Store, seed: u32, length: u32) -> (Vec<Step>, Played) {
    let mut steps = Vec::new();
    let end = store.play_load(seed, length, |_, step| steps.push(step));
    assert_eq!(end.steps as usize, steps.len());
    (steps, end)
}

/// A press of one panel that has one reply to deliver and nothing else: all begins are used up.
fn one_reply_left() -> Store {
    let mut store = opened(2, 1, 1);
    let end = store.play_load(3, u32::MAX, |_, _| ());
    let mut store = opened(2, 1, 1);
    assert_eq!(store.play_load(3, end.steps - 1, |_, _| ()).steps, end.steps - 1);
    store
}

#[test]
fn document_02s_numbers() {
    assert_eq!([advance(0), advance(0x3C6E_F35F), advance(0x4750_2932)], [0x3C6E_F35F, 0x4750_2932, 0xD1CC_F6E9]);
    assert_eq!(advance(u32::MAX), 1_013_904_223 - 1_664_525);
}

#[test]
fn places_are_by_the_high_half_of_the_number() {
    // Halves: the first quarter of the numbers picks the first of four, whatever stands in the low half.
    for (number, count, expected) in [
        (0, 4, 0),
        (0x3FFF_FFFF, 4, 0),
        (0x4000_0000, 4, 1),
        (0x4000_FFFF, 4, 1),
        (0xBFFF_FFFF, 4, 2),
        (0xC000_0000, 4, 3),
        (0xFFFF_FFFF, 4, 3),
        (0xFFFF_FFFF, 1, 0),
        (0xFFFF_0000, 272, 271),
        (0x0000_FFFF, 272, 0),
        (0x5555_0000, 3, 0),
        (0x5556_0000, 3, 1),
    ] {
        assert_eq!(place(number, count), expected, "{number:#x} of {count}");
    }
}

#[test]
fn every_place_can_be_picked_and_no_other() {
    for count in [1, 2, 3, 5, 36, 271, 272] {
        let found: std::collections::BTreeSet<usize> =
            (0..=u16::MAX).map(|high| place(u32::from(high) << 16 | 7, count)).collect();
        assert!(found.into_iter().eq(0..count), "{count}");
    }
}

#[test]
fn the_numbering() {
    let steps: Vec<Numbered> = numbered(2).collect();
    assert_eq!(steps.len(), 2 + 2 + 2 * 17 + 2 * 17);
    assert_eq!(steps[..2], [0, 1].map(|client| Numbered::Write { client }));
    assert_eq!(steps[2..4], [0, 1].map(|client| Numbered::Read { client }));
    assert_eq!(steps[4], Numbered::Request { client: 0, target: 0 });
    assert_eq!(steps[20..22], [(0, 16), (1, 0)].map(|(client, target)| Numbered::Request { client, target }));
    assert_eq!(steps[37..39], [Numbered::Request { client: 1, target: 16 }, Numbered::Reply { client: 0, target: 0 }]);
    assert_eq!(steps[71], Numbered::Reply { client: 1, target: 16 });
}

/// Method B, k 2, p 2, seed 0.
#[test]
fn the_worked_example() {
    let lines = "W 0 3 0 1 1\nR 1 3\n> 1 16\n< 1 16\n> 0 1\n> 1 1\n> 1 0\n< 1 0\n< 0 1\n< 1 1\n> 0 0\n< 0 0\n";
    let expected: Vec<Step> = model::line::lines(lines.as_bytes()).map(|line| model::line::step_of(line).unwrap()).collect();
    let (steps, end) = played(&mut opened(2, 2, 2), 0, 12);
    assert_eq!(steps, expected);
    assert_eq!(end.seed, (0..12).fold(0, |seed, _| advance(seed)));
}

#[test]
fn the_first_pick_is_by_the_number_behind_the_seed() {
    // Four steps are acceptable at an opening of two panels under B. By the seed itself it would be the last of them.
    let store = opened(2, 1, 2);
    let seed = 0xFFFF_FFFF;
    assert_eq!((store.acceptable().len(), place(seed, 4), place(advance(seed), 4)), (4, 3, 0));
    let step = Step::BeginWrite { client: 0, mask: 1, badge: 0, setpoints: vec![1] };
    assert_eq!(store.next_step(seed), Some(Pick { seed: advance(seed), step }));
}

#[test]
fn a_request_comes_ahead_of_a_reply() {
    // Client 1 has a request on its link, client 0 a reply: the request is numbered first all the same.
    let mut store = opened(2, 1, 2);
    for client in [0, 1] {
        store.begin_read_mixed(client, 1).unwrap();
    }
    store.deliver_request(0, 16).unwrap();
    assert_eq!(store.acceptable(), [Numbered::Request { client: 1, target: 16 }, Numbered::Reply { client: 0, target: 16 }]);
}

#[test]
fn a_writes_setpoints_are_its_count_and_its_badge_is_0() {
    let mut store = opened(3, 2, 1);
    let (steps, _) = played(&mut store, 9, u32::MAX);
    let given = steps.iter().filter_map(|step| match step {
        Step::BeginWrite { badge, setpoints, .. } => Some((*badge, setpoints.clone())),
        _ => None,
    });
    assert!(given.eq((1..=255).map(|count| (0, vec![count; 2]))));
}

#[test]
fn what_is_acceptable_is_what_a_step_does_not_refuse() {
    for (method, servers, clients, seed) in [(1, 2, 3, 5), (2, 1, 2, 6), (2, 3, 2, 7), (3, 2, 2, 8), (3, 1, 1, 9)] {
        let mut store = opened(method, servers, clients);
        if method == 1 {
            store.begin_write_mixed(1, 3, 0, &[7, 8]).unwrap();
            store.begin_read_mixed(0, 3).unwrap();
        }
        let mut end = Played { steps: 1, seed };
        while end.steps > 0 {
            let taken = |&step: &Numbered| store.clone().take(&store.given(step)).is_ok();
            let expected: Vec<Numbered> = numbered(clients).filter(taken).collect();
            assert_eq!(store.acceptable(), expected);
            // At every tenth step, so that it takes no longer than a second; at each of the few that method 1 has.
            end = store.play_load(end.seed, if method == 1 { 1 } else { 10 }, |_, _| ());
        }
    }
}

/// The last step number, a full log, full versions and a key that is not held.
#[test]
fn what_a_limit_refuses_is_not_acceptable() {
    let mut store = opened(2, 1, 1);
    store.step = u32::MAX;
    assert_eq!(store.next_step(5), None);

    let mut store = opened(2, 1, 2);
    store.begin_write_mixed(0, 1, 0, &[1]).unwrap();
    store.begin_read_mixed(1, 1).unwrap();
    store.deliver_request(1, 16).unwrap();
    store.deliver_reply(1, 16).unwrap();
    assert_eq!(store.acceptable().len(), 2);
    let first = store.servers[0][0];
    store.servers[0] = vec![first; 256];
    assert_eq!(store.acceptable(), [Numbered::Request { client: 1, target: 0 }]);
    store.servers[0] = vec![model::Version { key: model::Key { count: 1, client: 0 }, ..first }];
    assert_eq!(store.acceptable(), [Numbered::Request { client: 0, target: 0 }]);

    let mut store = opened(2, 1, 1);
    store.begin_write_mixed(0, 1, 0, &[1]).unwrap();
    store.deliver_request(0, 0).unwrap();
    store.deliver_reply(0, 0).unwrap();
    assert_eq!(store.acceptable(), [Numbered::Request { client: 0, target: 16 }]);
    store.log = vec![store.log[0]; 256];
    assert_eq!(store.acceptable(), []);
}

/// With one step it is given, and the seed advances; with none the seed stays.
#[test]
fn one_step_and_none() {
    let mut store = one_reply_left();
    let acceptable = store.acceptable();
    assert!(matches!(acceptable[..], [Numbered::Reply { .. }]), "{acceptable:?}");
    for seed in [0, 1, 0x8000_0000, u32::MAX] {
        assert_eq!(store.next_step(seed).map(|pick| pick.seed), Some(advance(seed)));
    }
    assert_eq!(store.play_load(17, 9, |_, _| ()), Played { steps: 1, seed: advance(17) });
    assert_eq!(store.next_step(17), None);
    assert_eq!(store.play_load(17, 9, |_, _| ()), Played { steps: 0, seed: 17 });
}

#[test]
fn length_0_gives_nothing() {
    let mut store = opened(2, 2, 2);
    assert_eq!(played(&mut store, 8, 0), (vec![], Played { steps: 0, seed: 8 }));
    assert_eq!(store, opened(2, 2, 2));
}

#[test]
fn a_load_in_parts_is_the_whole() {
    let mut whole = opened(3, 2, 3);
    let (steps, end) = played(&mut whole, 12, 400);
    let mut parts = opened(3, 2, 3);
    let (mut found, mut seed) = (Vec::new(), 12);
    for length in [0, 1, 99, 250, 50] {
        let (more, part) = played(&mut parts, seed, length);
        found.extend(more);
        seed = part.seed;
    }
    assert_eq!((found, seed), (steps, end.seed));
    assert_eq!(parts, whole);
}

/// 255 WRITEs and 255 READs of all k stations: 2k + 3 steps each.
fn steps_to_the_end(servers: u32) -> u32 {
    510 * (2 * servers + 3)
}

#[test]
fn a_load_from_an_opening_ends_by_itself() {
    let presses = [(1, 1), (1, 2), (2, 2), (3, 5), (4, 4), (2, 16), (16, 2), (9, 7)];
    for method in 2..=3 {
        for (place, (servers, clients)) in presses.into_iter().enumerate() {
            let mut store = opened(method, servers, clients);
            let seed = 1_000_003 * (place as u32 + 1) * method;
            let end = store.play_load(seed, u32::MAX, |_, _| ());
            assert_eq!(end.steps, steps_to_the_end(servers), "{method} {servers} {clients}");
            assert!(store.clients.iter().all(|client| client.state == State::Idle));
            assert_eq!((store.writes.len(), store.reads.len(), store.log.len()), (255, 255, 256));
        }
    }
}

/// "nothing new begins": under method 1 a load delivers what is under way, and ends.
#[test]
fn a_load_under_method_1_delivers_to_the_end() {
    let mut store = opened(1, 2, 3);
    assert_eq!(store.acceptable(), []);
    store.begin_write_mixed(1, 3, 0, &[7, 8]).unwrap();
    store.begin_write_mixed(2, 1, 0, &[9, 9]).unwrap();
    store.begin_read_mixed(0, 3).unwrap();
    store.deliver_request(1, 0).unwrap();
    // Of the WRITEs 2 steps for each station and for the head, of the READ 2 for each station; one of them is done.
    let end = store.play_load(4, u32::MAX, |_, step| assert!(!matches!(step, Step::BeginWrite { .. } | Step::BeginRead { .. })));
    assert_eq!(end.steps, 6 + 4 + 4 - 1);
    assert!(store.clients.iter().all(|client| client.state == State::Idle));
    assert_eq!((store.writes.len(), store.reads.len(), store.log.len()), (2, 1, 3));
}

#[test]
fn every_seed_gives_the_same_length_and_other_steps() {
    let whole = |seed| played(&mut opened(2, 1, 2), seed, u32::MAX);
    let (first, end) = whole(0);
    assert_eq!(whole(0).0, first);
    for seed in [1, 2, 3, 0x7FFF_FFFF, u32::MAX] {
        let (steps, other) = whole(seed);
        assert_eq!(other.steps, end.steps);
        assert_ne!(steps, first);
    }
}
