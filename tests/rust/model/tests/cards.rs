//! The bench cards that are about steps, and the tags and badges that READs show.

use model::history::{listing, Listed};
use model::key::{latest, servers_of, Entry, Key, Latest};
use model::{replay, Answer, Link, ReadRecord, Refusal, Request, Shown, Step, Store, Version, WriteRecord};

fn opened(method: u32, servers: u32, clients: u32) -> Store {
    let setpoints: Vec<u32> = (0..servers).map(|server| 100 + server).collect();
    Store::open_mixed(method, servers, clients, &setpoints).expect("a good opening")
}

/// Delivers a request and its reply, and gives the reply's answer.
fn cross(store: &mut Store, client: u32, target: u32) -> Answer {
    store.deliver_request(client, target).expect("a request");
    store.deliver_reply(client, target).expect("a reply")
}

/// A WRITE of one value to the servers of a mask, from its begin to its end, with badge 0.
fn write_to(store: &mut Store, client: u32, mask: u32, setpoint: u32) -> Answer {
    write_by(store, client, mask, 0, setpoint)
}

/// The same with any badge.
fn write_by(store: &mut Store, client: u32, mask: u32, badge: u16, setpoint: u32) -> Answer {
    let setpoints = vec![setpoint; store.servers.len()];
    store.begin_write_mixed(client, mask, badge, &setpoints).expect("accepted");
    for server in servers_of(mask) {
        cross(store, client, server as u32);
    }
    cross(store, client, 16)
}

/// The answer of a READ, of each server its number, setpoint and tag, with badge 0.
fn read(tag: usize, shown: &[(usize, u32, usize)]) -> Answer {
    let shown: Vec<_> = shown.iter().map(|&(server, setpoint, tag)| (server, setpoint, tag, 0)).collect();
    read_by(tag, &shown)
}

/// The same with any badges.
fn read_by(tag: usize, shown: &[(usize, u32, usize, u32)]) -> Answer {
    let shown = shown.iter().map(|&(server, setpoint, tag, badge)| Shown { server, setpoint, tag, badge });
    Answer::Read { tag, shown: shown.collect() }
}

/// "The bench card for method 1 now has 1 for p 2 as well."
#[test]
fn method_1_opens_nothing() {
    for clients in [1, 2, 16] {
        assert_eq!(Store::open(1, 1, clients, &[5]).unwrap_err(), Refusal::BadOpening);
    }
    assert_eq!(Store::open_mixed(1, 1, 1, &[5]).unwrap_err(), Refusal::BadOpening);
    assert!(Store::open_mixed(1, 1, 2, &[5]).is_ok());
}

#[test]
fn masks_of_two_stations() {
    assert_eq!(opened(2, 2, 1).begin_read_mixed(0, 4), Err(Refusal::BadMask));
    assert_eq!(opened(2, 2, 1).begin_write_mixed(0, 4, 0, &[1, 2]), Err(Refusal::BadMask));
    assert_eq!(opened(2, 2, 1).begin_read_mixed(0, 3), Ok(Answer::Ok));
    assert_eq!(opened(2, 2, 1).begin_write_mixed(0, 3, 0, &[1, 2]), Ok(Answer::Ok));
}

#[test]
fn a_busy_panel_with_mask_0() {
    let mut store = opened(2, 2, 1);
    store.begin_read_mixed(0, 3).unwrap();
    assert_eq!(store.begin_read_mixed(0, 0), Err(Refusal::Busy));
    assert_eq!(store.begin_write_mixed(0, 0, 0, &[]), Err(Refusal::Busy));
}

#[test]
fn keys_at_tag_1() {
    let first = Key { count: 1, client: 0 };
    let log = [Entry { key: Key::OPENING, mask: 3 }, Entry { key: first, mask: 1 }];
    assert_eq!(latest(&log, 0, 1), Latest { key: first, tag: 1 });
    assert_eq!(latest(&log, 1, 1), Latest { key: Key::OPENING, tag: 0 });
}

#[test]
fn c_one_write_seen_by_one_station_only() {
    let mut store = opened(3, 2, 2);
    store.begin_read_mixed(1, 3).unwrap();
    store.deliver_request(1, 0).unwrap();
    assert_eq!(write_to(&mut store, 0, 3, 9), Answer::Write { tag: 1 });
    assert_eq!(store.deliver_reply(1, 0), Ok(Answer::Wait));
    assert_eq!(cross(&mut store, 1, 1), Answer::Wait);
    assert_eq!(cross(&mut store, 1, 16), read(0, &[(0, 100, 0), (1, 101, 0)]));
}

#[test]
fn c_does_not_stop_at_the_first_missing_key() {
    // Panel 0's entry is a, panel 1's is b; station 0 gets b first and is asked before a arrives.
    let mut store = opened(3, 2, 3);
    store.begin_write_mixed(0, 1, 0, &[7, 0]).unwrap();
    store.begin_write_mixed(1, 1, 0, &[8, 0]).unwrap();
    cross(&mut store, 1, 0);
    store.begin_read_mixed(2, 1).unwrap();
    store.deliver_request(2, 0).unwrap();
    cross(&mut store, 0, 0);
    assert_eq!(cross(&mut store, 0, 16), Answer::Write { tag: 1 });
    assert_eq!(cross(&mut store, 1, 16), Answer::Write { tag: 2 });
    assert_eq!(store.deliver_reply(2, 0), Ok(Answer::Wait));
    assert_eq!(cross(&mut store, 2, 16), read(2, &[(0, 8, 2)]));
}

#[test]
fn write_256_is_refused() {
    for method in 1..=3 {
        let mut store = opened(method, 1, 2);
        for number in 1..=255 {
            assert_eq!(write_to(&mut store, 1, 1, 5), Answer::Write { tag: number });
        }
        let refused = if method == 1 { Refusal::Retired } else { Refusal::Exhausted };
        assert_eq!(store.begin_write_mixed(1, 1, 0, &[5]), Err(refused));
        assert_eq!(store.log.len(), 256);
        assert_eq!(store.servers[0].len(), 256);
    }
}

#[test]
fn read_256_is_refused() {
    for (method, targets, refused) in [(1, &[0][..], Refusal::Retired), (2, &[16, 0], Refusal::Exhausted)] {
        let mut store = opened(method, 1, 2);
        for _ in 1..=255 {
            store.begin_read_mixed(0, 1).expect("accepted");
            let last = targets.iter().map(|&target| cross(&mut store, 0, target)).last();
            assert!(matches!(last, Some(Answer::Read { tag: 0, .. })));
        }
        assert_eq!(store.begin_read_mixed(0, 1), Err(refused));
    }
}

#[test]
fn the_last_step_number() {
    let mut store = opened(2, 1, 1);
    store.step = u32::MAX;
    assert_eq!(store.deliver_request(0, 0), Err(Refusal::Exhausted));
    assert_eq!(store.begin_read_mixed(0, 2), Err(Refusal::BadMask));
    assert_eq!(store.begin_read_mixed(0, 1), Err(Refusal::Exhausted));
    assert_eq!(store.deliver_reply(0, 1), Err(Refusal::NoSuchPlace));
}

#[test]
fn numbers_are_not_cut() {
    let input = b"O 258 1 1 5\nO 2 1 1 5\nR 256 1\nR 0 65537\n> 0 272\n";
    assert_eq!(replay(input), b"1 no 1\n2 ok\n3 no 3\n4 no 6\n5 no 3\n");
}

/// "any begin on such tables returns 4", behind 3 and ahead of 5, 6 and 7, whoever begins.
#[test]
fn nothing_begins_under_method_1() {
    let mut store = opened(1, 1, 3);
    store.begin_write_mixed(1, 1, 0, &[5]).unwrap();
    for step_number in [store.step, u32::MAX] {
        store.step = step_number;
        for client in 0..3 {
            for mask in [0, 1, 2] {
                assert_eq!(store.begin_write(client, mask, 0, &[5]), Err(Refusal::Retired));
                assert_eq!(store.begin_write(client, mask, 0, &[]), Err(Refusal::Retired));
                assert_eq!(store.begin_read(client, mask), Err(Refusal::Retired));
            }
        }
        assert_eq!(store.begin_write(3, 1, 0, &[5]), Err(Refusal::NoSuchPlace));
        assert_eq!(store.begin_read(3, 0), Err(Refusal::NoSuchPlace));
    }
}

/// "their transactions run to the end": a WRITE and a READ that the former rules began, by today's deliveries.
#[test]
fn what_was_begun_under_method_1_ends() {
    let mut store = opened(1, 1, 2);
    store.begin_write_mixed(1, 1, 0, &[5]).unwrap();
    store.begin_read_mixed(0, 1).unwrap();
    assert_eq!(cross(&mut store, 1, 0), Answer::Next);
    assert_eq!(cross(&mut store, 1, 16), Answer::Write { tag: 1 });
    assert_eq!(cross(&mut store, 0, 0), read(0, &[(0, 100, 0)]));
    assert_eq!(store.begin_read(0, 1), Err(Refusal::Retired));
}

/// The former rules: panel 0 reads and the others write; what they refuse is answered by today's rules.
#[test]
fn a_read_at_the_head_and_wrote_elsewhere() {
    let mut store = opened(1, 1, 2);
    assert_eq!(store.begin_write_mixed(0, 1, 0, &[5]), Err(Refusal::Retired));
    assert_eq!(store.begin_read_mixed(1, 1), Err(Refusal::Retired));
    assert_eq!(store.deliver_request(0, 16), Err(Refusal::NothingThere));
    let write = |client, mask| Step::BeginWrite { client, mask, badge: 0, setpoints: vec![5] };
    assert_eq!(store.take_mixed(&write(1, 1)), Ok(Answer::Ok));
    for (step, former) in [
        (write(1, 1), Refusal::Busy),
        (write(0, 1), Refusal::Retired),
        (Step::BeginRead { client: 0, mask: 2 }, Refusal::BadMask),
        (Step::BeginRead { client: 1, mask: 1 }, Refusal::Retired),
    ] {
        assert_eq!(store.former_answer(&step), Some(Err(former)));
        assert_eq!(store.take_mixed(&step), Err(Refusal::Retired));
    }
    assert_eq!(store.former_answer(&write(2, 1)), Some(Err(Refusal::NoSuchPlace)));
    assert_eq!(store.former_answer(&Step::BeginRead { client: 0, mask: 1 }), Some(Ok(Answer::Ok)));
    assert_eq!(store.former_answer(&Step::DeliverRequest { client: 1, target: 0 }), None);
}

/// Targets in the order in which a READ of both servers can go through.
fn both(method: u32) -> &'static [u32] {
    [&[0, 1][..], &[16, 0, 1], &[0, 1, 16]][method as usize - 1]
}

#[test]
fn one_write_to_one_station_then_a_read_of_both() {
    for method in 1..=3 {
        let mut store = opened(method, 2, 2);
        write_to(&mut store, 1, 1, 1800);
        store.begin_read_mixed(0, 3).unwrap();
        let answers: Vec<Answer> = both(method).iter().map(|&target| cross(&mut store, 0, target)).collect();
        let last = answers.last().expect("an answer");
        assert_eq!(*last, read(1, &[(0, 1800, 1), (1, 101, 0)]));
        assert_eq!(last.to_string(), "read 1 0=1800@1#0 1=101@0#0");
    }
}

#[test]
fn c_falls_back_to_an_older_tag_and_shows_its_tags() {
    let mut store = opened(3, 2, 2);
    write_to(&mut store, 0, 1, 7);
    write_to(&mut store, 0, 2, 8);
    store.begin_read_mixed(1, 3).unwrap();
    store.deliver_request(1, 0).unwrap();
    assert_eq!(write_to(&mut store, 0, 3, 9), Answer::Write { tag: 3 });
    cross(&mut store, 1, 1);
    cross(&mut store, 1, 16);
    // Server 1 has 9 too, but server 0 answered without it: tag 2, at which server 0 has what tag 1 wrote.
    assert_eq!(store.deliver_reply(1, 0), Ok(read(2, &[(0, 7, 1), (1, 8, 2)])));
}

/// The tags that client 0 keeps for two servers.
fn kept(store: &Store) -> [usize; 2] {
    [store.clients[0].tags[0], store.clients[0].tags[1]]
}

#[test]
fn a_keeps_the_wanted_tags_from_the_begin() {
    let mut store = opened(1, 2, 2);
    write_to(&mut store, 1, 3, 7);
    store.begin_read_mixed(0, 1).unwrap();
    assert_eq!(kept(&store), [1, 0]);
    write_to(&mut store, 1, 3, 8);
    assert_eq!(cross(&mut store, 0, 0), read(1, &[(0, 7, 1)]));
    // Station 0's stays where it is not wanted, and where the READ has ended.
    store.begin_read_mixed(0, 2).unwrap();
    assert_eq!(kept(&store), [1, 2]);
    cross(&mut store, 0, 1);
    assert_eq!(kept(&store), [1, 2]);
}

#[test]
fn b_keeps_the_wanted_tags_from_the_keys_reply() {
    let mut store = opened(2, 2, 2);
    write_to(&mut store, 1, 3, 7);
    store.begin_read_mixed(0, 2).unwrap();
    store.deliver_request(0, 16).unwrap();
    write_to(&mut store, 1, 3, 8);
    assert_eq!(kept(&store), [0, 0]);
    store.deliver_reply(0, 16).unwrap();
    assert_eq!(kept(&store), [0, 1]);
    assert_eq!(cross(&mut store, 0, 1), read(1, &[(1, 7, 1)]));
}

#[test]
fn c_keeps_no_tags() {
    let mut store = opened(3, 2, 2);
    write_to(&mut store, 1, 3, 7);
    store.clients[0].tags[1] = 1;
    store.begin_read_mixed(0, 1).unwrap();
    cross(&mut store, 0, 0);
    assert_eq!(cross(&mut store, 0, 16), read(1, &[(0, 7, 1)]));
    assert_eq!(kept(&store), [0, 1]);
}

/// Client 0 reads both servers; the last reply's answer.
fn read_both(store: &mut Store) -> Answer {
    let method = store.method as u32;
    store.begin_read_mixed(0, 3).unwrap();
    both(method).iter().map(|&target| cross(store, 0, target)).last().expect("an answer")
}

/// Document 02's `0=1800@1#7`, and the opening's badge 0 beside it.
#[test]
fn a_badge_behind_each_tag() {
    for method in 1..=3 {
        let mut store = opened(method, 2, 2);
        write_by(&mut store, 1, 1, 7, 1800);
        let answer = read_both(&mut store);
        assert_eq!(answer, read_by(1, &[(0, 1800, 1, 7), (1, 101, 0, 0)]));
        assert_eq!(answer.to_string(), "read 1 0=1800@1#7 1=101@0#0");
    }
}

/// Each of two servers shows the badge of the WRITE that wrote it last, whichever was the last of all; 65535 is a badge like others.
#[test]
fn badges_of_two_writes() {
    for method in 1..=3 {
        let mut store = opened(method, 2, 3);
        write_by(&mut store, 1, 3, 65535, 1800);
        write_by(&mut store, 2, 2, 9, 1800);
        assert_eq!(read_both(&mut store), read_by(2, &[(0, 1800, 1, 65535), (1, 1800, 2, 9)]));
        write_by(&mut store, 1, 1, 0, 1800);
        assert_eq!(read_both(&mut store), read_by(3, &[(0, 1800, 3, 0), (1, 1800, 2, 9)]));
    }
}

/// A READ that looks at an older tag shows that WRITE's badge, though the server has a newer version with another.
#[test]
fn the_badge_of_the_asked_key() {
    for method in 1..=3 {
        let mut store = opened(method, 1, 2);
        write_by(&mut store, 1, 1, 7, 5);
        store.begin_read_mixed(0, 1).unwrap();
        if method == 2 {
            cross(&mut store, 0, 16);
        } else if method == 3 {
            store.deliver_request(0, 16).unwrap();
        }
        store.begin_write_mixed(1, 1, 8, &[5]).unwrap();
        cross(&mut store, 1, 0);
        store.deliver_request(0, 0).unwrap();
        if method == 3 {
            assert_eq!(store.deliver_reply(0, 16), Ok(Answer::Wait));
        }
        assert_eq!(store.deliver_reply(0, 0), Ok(read_by(1, &[(0, 5, 1, 7)])));
    }
}

/// "a panel stores it with each wanted setpoint", under C at the end; of others, and behind the end, it stays.
#[test]
fn badges_are_stored_with_the_setpoints() {
    for method in 1..=3 {
        let mut store = opened(method, 2, 2);
        write_by(&mut store, 1, 3, 7, 5);
        store.clients[0].badges = [11; 16];
        store.begin_read_mixed(0, 1).unwrap();
        for &target in both(method).iter().filter(|&&target| target != 1) {
            assert_eq!(store.clients[0].badges, [11; 16]);
            cross(&mut store, 0, target);
        }
        let mut stored = [11; 16];
        stored[0] = 7;
        assert_eq!(store.clients[0].badges, stored);
        // A WRITE stores its setpoints in its panel, and its badge apart from these.
        assert_eq!(store.clients[1].badges, [0; 16]);
    }
}

/// A WRITE's badge is in its set requests, in the versions and in its record.
#[test]
fn where_a_writes_badge_stands() {
    let mut store = opened(2, 2, 2);
    store.begin_write_mixed(0, 2, 65535, &[1, 2]).unwrap();
    let key = Key { count: 1, client: 0 };
    assert_eq!(store.clients[0].links[1], Link::Request(Request::Set { key, badge: 65535, setpoint: 2 }));
    store.deliver_request(0, 1).unwrap();
    assert_eq!(store.servers[1][1], Version { key, badge: 65535, setpoint: 2 });
    assert_eq!(store.writes[0].badge, 65535);
    assert!(store.servers.iter().all(|held| held[0].badge == 0));
}

/// A READ record of a tag, with its panel as its name.
fn finished(client: usize, tag: usize, begin: u32, end: u32) -> ReadRecord {
    ReadRecord { client, mask: 1, tag, begin, end: Some(end) }
}

/// "READs of one tag in order of begin step", "what ties keeps the order of records", on records that stand in no order.
#[test]
fn reads_of_one_tag_by_begin() {
    let unfinished = ReadRecord { end: None, ..finished(9, 1, 0, 0) };
    let reads = [finished(0, 1, 7, 20), finished(1, 0, 9, 10), unfinished, finished(2, 1, 5, 30), finished(3, 1, 7, 8)];
    let panel = |line: &Listed| match line {
        Listed::Read { record, .. } => record.client,
        Listed::Write(_) => unreachable!("there are READs only"),
    };
    assert_eq!(listing(&[], &reads).iter().map(panel).collect::<Vec<_>>(), [1, 2, 0, 3]);
}

/// "A WRITE begun before the READ's end and not finished overlaps it, tagged or not", on records with any numbers: a READ from 10 to 20, and
/// one that ends where it began.
#[test]
fn overlaps_of_finished_and_unfinished_writes() {
    let writes = [
        (9, Some(10), [0, 0]),
        (9, Some(11), [1, 1]),
        (0, Some(u32::MAX), [1, 1]),
        (19, Some(11), [1, 0]),
        (20, Some(30), [0, 0]),
        (20, Some(1), [0, 0]),
        (9, None, [1, 1]),
        (10, None, [1, 0]),
        (19, None, [1, 0]),
        (20, None, [0, 0]),
        (21, None, [0, 0]),
        (u32::MAX, None, [0, 0]),
        (0, None, [1, 1]),
    ];
    let reads = [finished(0, 0, 10, 20), finished(0, 0, 10, 10)];
    let overlaps = |writes: &[WriteRecord]| -> Vec<usize> {
        let of_read = |line: &Listed| match line {
            Listed::Read { overlap, .. } => Some(*overlap),
            Listed::Write(_) => None,
        };
        listing(writes, &reads).iter().filter_map(of_read).collect()
    };
    for tag in [0, 1] {
        let record = |&(begin, end, _): &(u32, Option<u32>, _)| WriteRecord { client: 1, count: 1, tag, begin, end, badge: 0 };
        for write in &writes {
            assert_eq!(overlaps(&[record(write)]), write.2, "tag {tag}, {write:?}");
        }
        // Of all of them together, the number.
        assert_eq!(overlaps(&writes.iter().map(record).collect::<Vec<_>>()), [7, 4]);
    }
}
