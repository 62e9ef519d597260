//! The bench cards about frames, the longest frames, and that every cut of a good frame is 10.

use frames::{read, write, Message};
use model::{Entry, Key, Latest, Refusal, Version};

const CARD: [u8; 10] = [0x12, 0x18, 0x09, 0x00, 0x00, 0x00, 0x00, 0x03, 0x84, 0x00];

fn card() -> Message {
    set(0)
}

/// The card's message with any badge.
fn set(badge: u16) -> Message {
    Message::Set { client: 2, server: 3, key: Key { count: 1, client: 2 }, badge, setpoint: 1800 }
}

/// One message of every kind; those with entries have the most.
fn messages() -> Vec<Message> {
    let key = Key { count: 255, client: 15 };
    vec![
        card(),
        Message::SetDone { client: 15, server: 15 },
        Message::Enter { client: 15, key, mask: 65535 },
        Message::Entered { client: 0, tag: 255 },
        Message::WhichKeys { client: 1 },
        Message::Keys { client: 3, tag: 0, keys: vec![Latest { key, tag: 255 }; 16] },
        Message::Get { client: 4, server: 0, key: Key::OPENING },
        Message::Got { client: 5, server: 9, badge: 65535, setpoint: u32::MAX },
        Message::GetAll { client: 6, server: 7 },
        Message::All { client: 7, server: 1, versions: vec![Version { key, badge: 65535, setpoint: 1 }; 256] },
        Message::GetLog { client: 8 },
        Message::Log { client: 9, entries: vec![Entry { key, mask: 1 }; 256] },
    ]
}

#[test]
fn the_card_of_kind_1() {
    assert_eq!(write(&card()), Ok(CARD.to_vec()));
    assert_eq!(read(&CARD), Ok(card()));
}

#[test]
fn the_refused_cards() {
    let mut padded = CARD;
    padded[9] = 1;
    assert_eq!(read(&padded), Err(Refusal::BadField));
    let longer = [&CARD[..], &[0]].concat();
    assert_eq!(read(&longer), Err(Refusal::BadField));
    assert_eq!(read(&[]), Err(Refusal::CutShort));
    // The card as it was before there were badges.
    assert_eq!(read(&[0x12, 0x18, 0x09, 0x00, 0x00, 0x03, 0x84, 0x00]), Err(Refusal::CutShort));
}

/// Badge 7 beside 1800, in each kind that has badges: after the key, and before the setpoint.
#[test]
fn a_badge_before_each_setpoint() {
    let key = Key { count: 1, client: 2 };
    let versions = vec![Version { key, badge: 7, setpoint: 1800 }];
    let frames: [(Message, &[u8]); 3] = [
        // 0001 0010 00011  00000001 0010  0000000000000111  0..0 11100001000  0000000
        (set(7), &[0x12, 0x18, 0x09, 0x00, 0x03, 0x80, 0x00, 0x03, 0x84, 0x00]),
        // 1000 0010 00011  0000000000000111  0..0 11100001000  000
        (Message::Got { client: 2, server: 3, badge: 7, setpoint: 1800 }, &[0x82, 0x18, 0x00, 0x38, 0x00, 0x00, 0x38, 0x40]),
        // 1010 0010 00011  00000000  00000001 0010  0000000000000111  0..0 11100001000  0000000
        (Message::All { client: 2, server: 3, versions }, &[0xA2, 0x18, 0x00, 0x09, 0x00, 0x03, 0x80, 0x00, 0x03, 0x84, 0x00]),
    ];
    for (message, frame) in frames {
        assert_eq!(write(&message), Ok(frame.to_vec()), "{message:?}");
        assert_eq!(read(frame), Ok(message));
    }
}

/// "a 16-bit badge number, 0 allowed": none is a wrong field.
#[test]
fn every_badge_is_right() {
    for badge in (0..=65535).step_by(15) {
        let frame = write(&set(badge)).expect("writable");
        assert_eq!((frame.len(), read(&frame)), (10, Ok(set(badge))));
    }
}

#[test]
fn count_and_panel_of_a_key_are_two_fields() {
    assert_eq!(read(&[0x10, 0x00, 0x00]), Err(Refusal::BadField));
    assert_eq!(read(&[0x10, 0x00, 0x08]), Err(Refusal::CutShort));
}

#[test]
fn every_kind_goes_there_and_back() {
    for message in messages() {
        let frame = write(&message).expect("writable");
        assert_eq!(read(&frame), Ok(message));
        for length in 0..frame.len() {
            assert_eq!(read(&frame[..length]), Err(Refusal::CutShort));
        }
    }
}

#[test]
fn the_longest_frames() {
    let lengths: Vec<usize> = messages().iter().map(|message| write(message).unwrap().len()).collect();
    assert_eq!([lengths[5], lengths[9], lengths[11]], [44, 1923, 899]);
}

/// Panel 2 is told tag 2, at which station 0 has what tag 1 wrote, with key (1, 2), and station 1 the opening's.
#[test]
fn a_tag_behind_each_key() {
    let written = Latest { key: Key { count: 1, client: 2 }, tag: 1 };
    let keys = vec![written, Latest { key: Key::OPENING, tag: 0 }];
    // 0110 0010 10000  00000010 00010  00000001 0010 00000001  00000000 0000 00000000  000000
    let frame = [0x62, 0x80, 0x10, 0x80, 0x48, 0x04, 0x00, 0x00, 0x00];
    let message = Message::Keys { client: 2, tag: 2, keys };
    assert_eq!(write(&message), Ok(frame.to_vec()));
    assert_eq!(read(&frame), Ok(message));
}

#[test]
fn messages_that_are_not_writable() {
    let key = Key { count: 1, client: 1 };
    let broken = [
        Message::Set { client: 2, server: 0, key, badge: 0, setpoint: 0 },
        Message::Set { client: 16, server: 0, key: Key { count: 1, client: 16 }, badge: 0, setpoint: 0 },
        Message::Set { client: 1, server: 16, key, badge: 0, setpoint: 0 },
        Message::Enter { client: 0, key: Key::OPENING, mask: 1 },
        Message::Enter { client: 1, key, mask: 0 },
        Message::Enter { client: 1, key, mask: 65536 },
        Message::Entered { client: 1, tag: 0 },
        Message::Keys { client: 1, tag: 0, keys: vec![] },
        Message::Keys { client: 1, tag: 0, keys: vec![Latest { key, tag: 0 }; 17] },
        Message::Keys { client: 1, tag: 0, keys: vec![Latest { key, tag: 256 }] },
        Message::Get { client: 1, server: 0, key: Key { count: 0, client: 1 } },
        Message::All { client: 1, server: 0, versions: vec![] },
        Message::Log { client: 1, entries: vec![Entry { key, mask: 1 }; 257] },
    ];
    for message in broken {
        assert_eq!(write(&message), Err(Refusal::BadField), "{message:?}");
    }
}
