//! Lines that are refused: unreadable ones of every kind, and steps with arguments that mostly do not fit.

use crate::lines::line_of;
use crate::random::Random;
use model::Step;

/// The servers and clients of the store that a wrong line is for.
#[derive(Clone, Copy)]
pub struct Size {
    pub servers: usize,
    pub clients: usize,
}

/// A line that is most likely of no shape that the program knows.
pub fn unreadable(random: &mut Random, size: Size) -> Vec<u8> {
    let good = line_of(&step_of_any_kind(random, size));
    let letter = random.pick(b"OWR><!+");
    match random.below(21) {
        0 => Vec::new(),
        1 => vec![b' '],
        2 => vec![letter],
        3 => vec![letter, b' '],
        4 => [&good[..], b" "].concat(),
        5 => [b" ", &good[..]].concat(),
        6 => replaced(&good, b"  "),
        7 => replaced(&good, b"\t"),
        8 => replaced(&good, b""),
        9 => [&good[..], b"\r"].concat(),
        10 => [&[random.pick(b"owrXY0=?*-\x00\xff")][..], &good[1..]].concat(),
        11 => replaced(&good, random.pick(&[&b" 0"[..], b" -", b" +", b" 00", b" 0x"])),
        12 => [&good[..], random.pick(&[&b"x"[..], b".", b",1", b" x", b"\x00", b"=1"])].concat(),
        13 => [&[letter][..], random.pick(&[&b" 4294967296 1"[..], b" 0 4294967296", b" 0 42949672960"])].concat(),
        14 => format!("{} 1 {}", letter as char, "9".repeat(random.within(11, 60))).into_bytes(),
        15 => format!("{} {}", letter as char, random.below(3)).into_bytes(),
        16 => [&good[..], b" 1 2 3"].concat(),
        17 => noise(random),
        18 => no_badge(random, size),
        19 => beyond_badges(random, size),
        _ => too_long(random),
    }
}

/// The line with one space replaced.
fn replaced(line: &[u8], by: &[u8]) -> Vec<u8> {
    let space = line.iter().position(|&byte| byte == b' ').unwrap_or(0);
    [&line[..space], by, &line[space + 1..]].concat()
}

/// A W line that ends before its badge.
fn no_badge(random: &mut Random, size: Size) -> Vec<u8> {
    format!("W {} {}", client(random, size.clients), mask(random, size.servers)).into_bytes()
}

/// A W line with a number for its badge that has more than 16 bits, good or not in all else.
fn beyond_badges(random: &mut Random, size: Size) -> Vec<u8> {
    let badge = match random.below(3) {
        0 => 65_536,
        1 => random.pick(&[65_537, 65_543, 131_071, 131_072, 1 << 31, u32::MAX - 65_535, u32::MAX]),
        _ => (random.draw() as u32).max(65_536),
    };
    let setpoints = " 7".repeat(random.pick(&[0, 1, size.servers, size.servers]));
    format!("W {} {} {badge}{setpoints}", client(random, size.clients), mask(random, size.servers)).into_bytes()
}

/// Bytes of any value but 10.
fn noise(random: &mut Random) -> Vec<u8> {
    let length = random.within(1, 30);
    let byte = |random: &mut Random| match random.draw() as u8 {
        10 => 11,
        other => other,
    };
    (0..length).map(|_| byte(random)).collect()
}

/// A line of numbers that has about 200 bytes: 200 is a line, 201 is none.
fn too_long(random: &mut Random) -> Vec<u8> {
    let length = random.pick(&[199, 200, 201, 202, 203, 400, 401, 1000, 5000]);
    let start = random.pick(&[&b"O 2 1 1"[..], b"W 0 1 0", b"R 0 1", b"> 0 0", b"! 0 0", b"+ 0 0", b"xyz"]);
    let mut line = start.to_vec();
    while line.len() + 2 <= length {
        line.extend(b" 7");
    }
    line.resize(length, b'7');
    line
}

/// A step with arguments out of their ranges, or at their ends, or within them: then only by luck at the right time.
pub fn step_of_any_kind(random: &mut Random, size: Size) -> Step {
    let client = client(random, size.clients);
    match random.below(7) {
        0 => bad_opening(random),
        1 => {
            let setpoints = (0..random.below(18)).map(|place| place as u32).collect();
            Step::BeginWrite { client, mask: mask(random, size.servers), badge: badge(random), setpoints }
        }
        2 => Step::BeginRead { client, mask: mask(random, size.servers) },
        3 => Step::DeliverRequest { client, target: target(random, size.servers) },
        4 => Step::DeliverReply { client, target: target(random, size.servers) },
        5 => Step::Lose { client, target: target(random, size.servers) },
        _ => Step::Resend { client, target: target(random, size.servers) },
    }
}

/// A badge, often 0, 7 or one at an end of its range or of a byte's.
pub fn badge(random: &mut Random) -> u16 {
    match random.below(8) {
        0 | 1 => 0,
        2 => 7,
        3 => 65_535,
        4 => random.pick(&[1, 255, 256, 256 + 7, 32_768, 65_534]),
        _ => random.draw() as u16,
    }
}

fn client(random: &mut Random, clients: usize) -> u32 {
    match random.below(8) {
        0 => random.pick(&[16, 17, 255, 256, 257, 65536, u32::MAX]),
        1 => clients as u32,
        2 => random.below(17) as u32,
        _ => random.below(clients) as u32,
    }
}

fn target(random: &mut Random, servers: usize) -> u32 {
    match random.below(8) {
        0 => random.pick(&[17, 31, 32, 256, 272, 65552, u32::MAX]),
        1 => servers as u32,
        2 => random.below(17) as u32,
        3 => 16,
        _ => random.below(servers) as u32,
    }
}

fn mask(random: &mut Random, servers: usize) -> u32 {
    match random.below(6) {
        0 => random.pick(&[0, 65535, 65536, 65537, 1 << 31, u32::MAX]),
        1 => 1 << servers,
        2 => random.below(1 << 16) as u32 >> random.below(16),
        _ => random.below(1 << servers) as u32,
    }
}

/// An opening by method 1 that is right in all else, as it was before E10.
pub fn opening_by_method_1(random: &mut Random) -> Step {
    let servers = random.within(1, 16);
    Step::Open { method: 1, servers: servers as u32, clients: random.within(2, 16) as u32, setpoints: vec![7; servers] }
}

/// An opening with an argument out of its range, now and then with two.
fn bad_opening(random: &mut Random) -> Step {
    let servers = random.within(1, 16) as u32;
    let (mut method, mut asked, mut clients, mut given) = (random.within(1, 3) as u32, servers, 2, servers);
    for _ in 0..random.pick(&[1, 1, 1, 1, 1, 1, 1, 2]) {
        match random.below(5) {
            0 => method = random.pick(&[0, 4, 257, 258, 259, u32::MAX]),
            1 => asked = random.pick(&[0, 17, 256, 257, u32::MAX]),
            2 => clients = random.pick(&[0, 17, 256, 258, u32::MAX]),
            // Refused for every k and p.
            3 => (method, clients) = (1, random.pick(&[1, 2, 3, 16])),
            _ => given = random.pick(&[servers - 1, servers + 1]),
        }
    }
    Step::Open { method, servers: asked, clients, setpoints: vec![7; given as usize] }
}
