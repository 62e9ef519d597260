//! Entries in three lent slices: which of them a kind uses, and what is not writable for a badge.

use frames::lent::{read_lent, write_lent, Fixed};
use model::Refusal;

const UNTOUCHED: u32 = 0xA5A5_5A5A;

/// A message of a kind that has entries, two of them.
fn fixed(kind: u32) -> Fixed {
    Fixed { kind, client: 2, entries: 2, ..Fixed::default() }
}

/// Its frame, with these badges lent.
fn frame(kind: u32, badges: &[u32]) -> Result<Vec<u8>, Refusal> {
    let mut bytes = vec![0; 50];
    let length = write_lent(&fixed(kind), &[0, 258], badges, &[1, 2], &mut bytes)?;
    bytes.truncate(length);
    Ok(bytes)
}

/// What is read with so many places in each slice, and the slices behind it.
fn read(bytes: &[u8], places: [usize; 3]) -> (Result<Fixed, Refusal>, [Vec<u32>; 3]) {
    let mut lent = places.map(|number| vec![UNTOUCHED; number]);
    let [keys, badges, numbers] = &mut lent;
    (read_lent(bytes, keys, badges, numbers), lent)
}

#[test]
fn versions_have_badges() {
    let frame = frame(10, &[0, 65_535]).expect("writable");
    let (message, [keys, badges, numbers]) = read(&frame, [3, 3, 2]);
    assert_eq!(message, Ok(fixed(10)));
    assert_eq!((keys, badges, numbers), (vec![0, 258, UNTOUCHED], vec![0, 65_535, UNTOUCHED], vec![1, 2]));
    for places in [[1, 2, 2], [2, 1, 2], [2, 2, 1], [2, 0, 2]] {
        assert_eq!(read(&frame, places), (Err(Refusal::NoRoom), places.map(|number| vec![UNTOUCHED; number])));
    }
}

/// Kinds 6 and 12 look at keys and numbers alone.
#[test]
fn keys_and_logs_have_none() {
    for kind in [6, 12] {
        let bytes = frame(kind, &[]).expect("writable");
        assert_eq!(frame(kind, &[u32::MAX; 3]), Ok(bytes.clone()));
        for badges in [0, 1, 2, 5] {
            let (message, lent) = read(&bytes, [2, badges, 2]);
            assert_eq!(message, Ok(fixed(kind)));
            assert_eq!(lent, [vec![0, 258], vec![UNTOUCHED; badges], vec![1, 2]]);
        }
        assert_eq!(read(&bytes, [2, 2, 1]).0, Err(Refusal::NoRoom));
    }
}

#[test]
fn badges_that_are_not_writable() {
    for badges in [&[][..], &[7], &[7, 65_536], &[65_536, 7], &[7, u32::MAX]] {
        assert_eq!(frame(10, badges), Err(Refusal::BadField), "{badges:?}");
    }
    assert!(frame(10, &[7, 65_535, 65_536]).is_ok());
}
