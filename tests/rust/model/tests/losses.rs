//! Document 02, E6: lost requests and replies, and what is sent again.

use model::{replay, Answer, Entry, Key, Link, Refusal, Reply, Shown, State, Store, Version};

fn opened(method: u32, servers: u32, clients: u32) -> Store {
    let setpoints: Vec<u32> = (0..servers).map(|server| 100 + server).collect();
    Store::open_mixed(method, servers, clients, &setpoints).expect("a good opening")
}

fn link(store: &Store, client: usize, target: usize) -> &Link {
    &store.clients[client].links[target]
}

/// Delivers a request and its reply, and gives the reply's answer.
fn cross(store: &mut Store, client: u32, target: u32) -> Answer {
    store.deliver_request(client, target).expect("a request");
    store.deliver_reply(client, target).expect("a reply")
}

/// A WRITE of one setpoint to server 0, to its end.
fn write_to_0(store: &mut Store, client: u32, badge: u16, setpoint: u32) -> Answer {
    store.begin_write_mixed(client, 1, badge, &vec![setpoint; store.servers.len()]).expect("accepted");
    cross(store, client, 0);
    cross(store, client, 16)
}

/// Loses what a link holds and sends it again: it is the request that was first sent there, and two steps have passed.
fn lose_and_send_again(store: &mut Store, client: u32, target: u32, first: &Link) {
    let before = store.clone();
    assert_eq!(store.lose(client, target), Ok(Answer::Ok));
    assert_eq!(*link(store, client as usize, target as usize), Link::Lost);
    assert_eq!(store.lose(client, target), Err(Refusal::NothingToLose));
    assert_eq!(store.deliver_request(client, target), Err(Refusal::NothingThere));
    assert_eq!(store.deliver_reply(client, target), Err(Refusal::NothingThere));
    let mut lost = before.clone();
    lost.clients[client as usize].links[target as usize] = Link::Lost;
    lost.step += 1;
    assert_eq!(*store, lost, "nothing else changes");
    assert_eq!(store.resend(client, target), Ok(Answer::Ok));
    assert_eq!(link(store, client as usize, target as usize), first);
    assert_eq!(store.resend(client, target), Err(Refusal::NotLost));
    lost.clients[client as usize].links[target as usize] = first.clone();
    lost.step += 1;
    assert_eq!(*store, lost, "nothing else changes");
}

/// In every state, whether the request or the reply was lost: what is sent again is what was first sent.
#[test]
fn what_was_first_sent_is_sent_again() {
    let mut tried = 0;
    for (method, begin) in [(1, "W"), (1, "R"), (2, "W"), (2, "R"), (3, "W"), (3, "R")] {
        let mut store = opened(method, 2, 3);
        write_to_0(&mut store, 2, 9, 50);
        let client = u32::from(begin == "W");
        match begin {
            "W" => store.begin_write_mixed(client, 3, 65535, &[7, 8]),
            _ => store.begin_read_mixed(client, 3),
        }
        .expect("accepted");
        while store.clients[client as usize].state != State::Idle {
            let requests = store.clients[client as usize].links.clone();
            let state = store.clients[client as usize].state;
            for target in (0..17).filter(|&target| requests[target as usize] != Link::Nothing) {
                let first = &requests[target as usize];
                lose_and_send_again(&mut store, client, target, first);
                store.deliver_request(client, target).expect("it can be delivered");
                // The log goes on meanwhile, by a WRITE to station 0.
                write_to_0(&mut store, 2, 10, 60);
                lose_and_send_again(&mut store, client, target, first);
                tried += 1;
            }
            for target in 0..17 {
                if store.clients[client as usize].state == state && requests[target as usize] != Link::Nothing {
                    cross(&mut store, client, target);
                }
            }
        }
    }
    // A WRITE: two stations and the head. A READ: two stations, and under B and C the head.
    assert_eq!(tried, 3 * 3 + 2 + 3 + 3);
}

/// 2 cannot arise on an opened store; 3, then 7, then 14 and 15.
#[test]
fn refusals_in_their_order() {
    let mut store = opened(2, 2, 1);
    for (client, target) in [(1, 0), (0, 2), (0, 15), (0, 17), (256, 0), (0, 272), (u32::MAX, u32::MAX)] {
        assert_eq!(store.lose(client, target), Err(Refusal::NoSuchPlace));
        assert_eq!(store.resend(client, target), Err(Refusal::NoSuchPlace));
    }
    for target in [0, 1, 16] {
        assert_eq!(store.lose(0, target), Err(Refusal::NothingToLose));
        assert_eq!(store.resend(0, target), Err(Refusal::NotLost));
    }
    store.begin_read_mixed(0, 1).expect("accepted");
    for step in [u32::MAX, u32::MAX - 1] {
        store.step = step;
        let before = store.clone();
        let due = if step == u32::MAX { Err(Refusal::Exhausted) } else { Ok(Answer::Ok) };
        for (client, target) in [(0, 2), (1, 16)] {
            assert_eq!(store.lose(client, target), Err(Refusal::NoSuchPlace));
            assert_eq!(store.resend(client, target), Err(Refusal::NoSuchPlace));
        }
        assert_eq!(store.resend(0, 16), due.clone().and(Err(Refusal::NotLost)));
        assert_eq!(store.lose(0, 0), due.clone().and(Err(Refusal::NothingToLose)));
        assert_eq!(store, before);
        assert_eq!(store.lose(0, 16), due);
    }
    assert_eq!(store.step, u32::MAX);
    assert_eq!(store.resend(0, 16), Err(Refusal::Exhausted));
    assert_eq!([Refusal::NothingToLose as u8, Refusal::NotLost as u8], [14, 15]);
    for number in 1..=16 {
        assert_eq!(Refusal::from_number(number).map(|refusal| refusal as u32), Some(number));
    }
}

/// A station and a log with all 256 places in use: what is there is confirmed, and what is new is refused.
#[test]
fn confirmed_when_full() {
    let own = Key { count: 1, client: 0 };
    let other = Key { count: 2, client: 1 };
    for (key, full) in [(own, Ok(Answer::Ok)), (other, Err(Refusal::FullOrNotHeld))] {
        let mut store = opened(2, 1, 2);
        store.begin_write_mixed(0, 1, 7, &[5]).expect("accepted");
        store.servers[0].resize(256, Version { key, badge: 1, setpoint: 2 });
        let held = store.servers.clone();
        assert_eq!(store.deliver_request(0, 0), full);
        assert_eq!(store.servers, held);

        let mut store = opened(2, 1, 2);
        store.begin_write_mixed(0, 1, 7, &[5]).expect("accepted");
        cross(&mut store, 0, 0);
        store.log.resize(256, Entry { key, mask: 1 });
        let (log, writes) = (store.log.clone(), store.writes.clone());
        assert_eq!(store.deliver_request(0, 16), full);
        assert_eq!((&store.log, &store.writes), (&log, &writes));
        if full.is_ok() {
            // Of 255 places the first.
            assert_eq!(*link(&store, 0, 16), Link::Reply(Reply::Entered { tag: 1 }));
        }
    }
}

/// A set whose key is held is acknowledged, whatever badge and setpoint stand there; an enter is answered its first tag, and the record of
/// the WRITE is not touched.
#[test]
fn confirmed_with_nothing_stored() {
    let mut store = opened(3, 1, 1);
    store.begin_write_mixed(0, 1, 7, &[5]).expect("accepted");
    let key = Key { count: 1, client: 0 };
    store.servers[0].push(Version { key, badge: 8, setpoint: 6 });
    let held = store.servers.clone();
    assert_eq!(cross(&mut store, 0, 0), Answer::Next);
    assert_eq!(store.servers, held);
    store.log.extend([Entry { key, mask: 1 }, Entry { key: Key::OPENING, mask: 1 }, Entry { key, mask: 1 }]);
    let (log, writes) = (store.log.clone(), store.writes.clone());
    store.deliver_request(0, 16).expect("confirmed");
    assert_eq!((&store.log, &store.writes), (&log, &writes));
    assert_eq!(store.writes[0].tag, 0);
    assert_eq!(store.deliver_reply(0, 16), Ok(Answer::Write { tag: 1 }));
}

/// "A panel now also keeps its WRITE's badge and, in state 4, the keys it asks for": from the begin, or under B from the keys reply; other
/// words keep what they held, behind the end too.
#[test]
fn what_a_panel_keeps() {
    for method in 1..=2 {
        let mut store = opened(method, 2, 2);
        write_to_0(&mut store, 1, 65535, 5);
        assert_eq!((store.clients[1].badge, store.clients[0].badge), (65535, 0));
        store.clients[0].asked = [u32::MAX; 16];
        store.begin_read_mixed(0, 1).expect("accepted");
        if method == 2 {
            assert_eq!(store.clients[0].asked, [u32::MAX; 16]);
            cross(&mut store, 0, 16);
        }
        let mut asked = [u32::MAX; 16];
        asked[0] = Key { count: 1, client: 1 }.word();
        assert_eq!(store.clients[0].asked, asked);
        write_to_0(&mut store, 1, 0, 6);
        let shown = vec![Shown { server: 0, setpoint: 5, tag: 1, badge: 65535 }];
        assert_eq!(cross(&mut store, 0, 0), Answer::Read { tag: 1, shown });
        assert_eq!((store.clients[0].asked, store.clients[1].badge), (asked, 0));
    }
    let mut store = opened(3, 2, 2);
    store.clients[0].asked = [7; 16];
    store.begin_read_mixed(0, 3).expect("accepted");
    for target in [0, 1, 16] {
        cross(&mut store, 0, target);
    }
    assert_eq!(store.clients[0].asked, [7; 16]);
}

/// A lost acknowledgement has not arrived, nor has a lost reply of a READ.
#[test]
fn a_lost_link_is_not_empty() {
    let mut store = opened(2, 2, 1);
    store.begin_write_mixed(0, 3, 0, &[1, 2]).expect("accepted");
    store.deliver_request(0, 0).expect("a request");
    store.lose(0, 0).expect("a reply");
    assert_eq!(cross(&mut store, 0, 1), Answer::Wait);
    assert_eq!(*link(&store, 0, 16), Link::Nothing);
    assert_eq!(store.begin_read_mixed(0, 1), Err(Refusal::Busy));
    store.resend(0, 0).expect("lost");
    assert_eq!(cross(&mut store, 0, 0), Answer::Next);
    assert_eq!(store.servers[0].len(), 2);

    let mut store = opened(3, 1, 1);
    store.begin_read_mixed(0, 1).expect("accepted");
    store.lose(0, 16).expect("a request");
    assert_eq!(cross(&mut store, 0, 0), Answer::Wait);
    assert!(store.clients[0].log.is_empty());
}

/// "READ requests are answered as new": a version that has come since is in the second answer.
#[test]
fn answered_as_new() {
    let mut store = opened(3, 1, 2);
    store.begin_read_mixed(0, 1).expect("accepted");
    store.deliver_request(0, 0).expect("a request");
    store.deliver_request(0, 16).expect("a request");
    write_to_0(&mut store, 1, 3, 5);
    for target in [0, 16] {
        store.lose(0, target).expect("a reply");
        store.resend(0, target).expect("lost");
    }
    assert_eq!(cross(&mut store, 0, 0), Answer::Wait);
    let shown = vec![Shown { server: 0, setpoint: 5, tag: 1, badge: 3 }];
    assert_eq!(cross(&mut store, 0, 16), Answer::Read { tag: 1, shown });
}

/// The lines of the yard: two numbers, no more and no fewer.
#[test]
fn lines() {
    let input = b"! 0 0\n+ 0 0\nO 2 1 1 5\n! 0\n! 0 0 0\n+ 0\n+ 0 0 0\n!0 0\n! 0 00\n! 0 0\n+ 0 0\n! 1 0\n+ 0 1\n";
    let answers = ["no 2", "no 2", "ok", "no 13", "no 13", "no 13", "no 13", "no 13", "no 13", "no 14", "no 15", "no 3", "no 3"];
    let expected: String = (1..).zip(answers).map(|(number, answer)| format!("{number} {answer}\n")).collect();
    assert_eq!(String::from_utf8(replay(input)).expect("text"), expected);
}
