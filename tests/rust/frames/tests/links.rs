//! The frames of links, worked out by hand: client 2 and server 1, so that client, server and 0 are all different.

use frames::link::message_on;
use frames::write;
use model::{Entry, Key, Latest, Link, Reply, Request, Version};

const OWN: Key = Key { count: 1, client: 2 };

fn frame(link: Link, target: u8) -> Vec<u8> {
    write(&message_on(&link, 2, target).expect("the link holds something")).expect("it can be written")
}

#[test]
fn an_empty_link_has_no_message() {
    assert_eq!(message_on(&Link::Nothing, 2, 1), None);
}

/// "a lost link has no frame": neither that of the request that is to be sent again nor that of the reply.
#[test]
fn a_lost_link_has_no_message() {
    for target in [0, 1, 16] {
        assert_eq!(message_on(&Link::Lost, 2, target), None);
    }
}

#[test]
fn requests() {
    let set = [0x12, 0x08, 0x09, 0, 0x03, 0x80, 0, 0, 0x16, 0x80];
    assert_eq!(frame(Link::Request(Request::Set { key: OWN, badge: 7, setpoint: 45 }), 1), set);
    assert_eq!(frame(Link::Request(Request::Enter { key: OWN, mask: 2 }), 16), [0x32, 0x80, 0x09, 0, 0x01, 0]);
    assert_eq!(frame(Link::Request(Request::WhichKeys), 16), [0x52, 0x80]);
    assert_eq!(frame(Link::Request(Request::Get { key: OWN }), 1), [0x72, 0x08, 0x09, 0]);
    assert_eq!(frame(Link::Request(Request::GetAll), 1), [0x92, 0x08]);
    assert_eq!(frame(Link::Request(Request::GetLog), 16), [0xB2, 0x80]);
}

#[test]
fn replies() {
    let keys = vec![Latest { key: Key::OPENING, tag: 0 }, Latest { key: OWN, tag: 1 }];
    let versions = vec![Version { key: Key::OPENING, badge: 0, setpoint: 30 }, Version { key: OWN, badge: 7, setpoint: 45 }];
    let entries = vec![Entry { key: Key::OPENING, mask: 3 }, Entry { key: OWN, mask: 2 }];
    assert_eq!(frame(Link::Reply(Reply::SetDone), 1), [0x22, 0x08]);
    assert_eq!(frame(Link::Reply(Reply::Entered { tag: 1 }), 16), [0x42, 0x80, 0x08]);
    let told = [0x62, 0x80, 0x08, 0x80, 0, 0, 0x04, 0x80, 0x40];
    assert_eq!(frame(Link::Reply(Reply::Keys { tag: 1, keys }), 16), told);
    let got = [0x82, 0x08, 0, 0x38, 0, 0, 0x01, 0x68];
    assert_eq!(frame(Link::Reply(Reply::Got { badge: 7, setpoint: 45 }), 1), got);
    let all = [0xA2, 0x08, 0x08, 0, 0, 0, 0, 0, 0, 0x0F, 0, 0x90, 0, 0x38, 0, 0, 0x01, 0x68];
    assert_eq!(frame(Link::Reply(Reply::All { versions }), 1), all);
    assert_eq!(frame(Link::Reply(Reply::Log { entries }), 16), [0xC2, 0x80, 0x08, 0, 0, 0x01, 0x80, 0x90, 0, 0x10]);
}
