//! Lines that ask for a load, through a program: the schedule that it prints is the model's, byte by byte, and `no 1` and `no 13` too.

use crate::arguments::Arguments;
use crate::programs::{first_difference, run};
use crate::schedules_run::Output;
use crate::tally::Tally;
use crate::Report;
use schedules::{load_text, Random};

/// In a run of so many lines each of these is to occur.
const MANY: usize = 200;
const DUE: [&str; 6] = ["the opening alone", "cut", "to the end", "no 1", "no 1 of method 1", "no 13"];

/// Asks for `cases` loads, one of three by a line that is refused or not readable.
pub fn compare(arguments: &Arguments) -> Report {
    compare_by(arguments, &mut |text| run(&arguments.program, text))
}

/// The same of any program, which gives its output for a text.
pub fn compare_by(arguments: &Arguments, make: &mut dyn FnMut(&[u8]) -> Output) -> Report {
    let (mut found, mut lines) = (Tally::default(), 0);
    for case in 0..arguments.cases {
        let text = some_text(&mut Random::new(arguments.seed_of(case)));
        let asked = String::from_utf8_lossy(&text).into_owned();
        let expected = load_text(&text);
        let output = make(&text).map_err(|fault| format!("{asked:?}: {fault}"))?;
        if output != expected {
            return Err(format!("{asked:?}: {}", first_difference(&expected, &output)));
        }
        let printed = model::line::lines(&output).count();
        lines += printed;
        found.count(kind(&asked, &output, printed));
    }
    if lines == 0 {
        return Err("nothing was compared".into());
    }
    if arguments.cases >= MANY {
        found.require(&DUE)?;
    }
    Ok(format!("{} lines asked, {lines} printed; loads: {found}", arguments.cases))
}

/// What came of a line.
fn kind(asked: &str, output: &[u8], printed: usize) -> &'static str {
    let word = |place: usize| asked.trim_end().split(' ').nth(place);
    let length = || word(1).and_then(|word| word.parse().ok());
    match output {
        b"no 1\n" if word(2) == Some("1") => "no 1 of method 1",
        b"no 1\n" => "no 1",
        b"no 13\n" => "no 13",
        _ if printed == 1 => "the opening alone",
        _ if length() == Some(printed - 1) => "cut",
        _ => "to the end",
    }
}

/// A line; one of four goes without byte 10 behind it, which an empty one must have to be a line.
fn some_text(random: &mut Random) -> Vec<u8> {
    let mut line = match random.below(6) {
        0 => refused(random).join(" ").into_bytes(),
        1 => unreadable(random),
        _ => good(random).join(" ").into_bytes(),
    };
    if line.is_empty() || !random.chance(1, 4) {
        line.push(b'\n');
    }
    line
}

/// Seed, length, method, k and p of a press; now and then a small one with a length that is not reached.
fn good(random: &mut Random) -> [String; 5] {
    let seed = random.word();
    let method = random.within(2, 3);
    let (length, most) = match random.below(8) {
        0 => (0, 16),
        1 => (random.pick(&[20_000, 1 << 30, u32::MAX]), 2),
        _ => (random.within(1, 300) as u32, 16),
    };
    let (servers, clients) = (random.within(1, most), random.within(1, most));
    [seed.to_string(), length.to_string(), method.to_string(), servers.to_string(), clients.to_string()]
}

/// The same with a method, k or p that no press has, or with method 1, which opens none.
fn refused(random: &mut Random) -> [String; 5] {
    let mut numbers = good(random);
    let place = random.within(2, 4);
    numbers[place] = random.pick(&[0, 17, 18, 256, 257, 258, 259, 65537, u32::MAX]).to_string();
    if random.chance(1, 4) {
        numbers = good(random);
        numbers[2] = "1".into();
    }
    numbers
}

/// A line of another shape.
fn unreadable(random: &mut Random) -> Vec<u8> {
    let mut numbers = good(random);
    let place = random.below(5);
    let odd = match random.below(4) {
        0 => format!("0{}", numbers[place]),
        1 => random.pick(&["4294967296", "4294967297", "42949672950", "99999999999999999999"]).into(),
        2 => random.pick(&["", "-1", "+1", "x", "1x", "0x1", "1.0", "1,1", "\t", "\u{1}"]).into(),
        _ => numbers[place].clone() + random.pick(&[" ", "  ", "\r", "\t", " x", " 1 1 1 1 1 1"]),
    };
    let line = match random.below(6) {
        0 => return vec![random.pick(b"OWR><x "); random.pick(&[0, 1, 5, 200, 201, 5000, 70_000])],
        1 => return format!(" {}", numbers.join(" ")).into_bytes(),
        2 => return numbers[..place].join(" ").into_bytes(),
        3 => return format!("{} {}", numbers.join(" "), random.word()).into_bytes(),
        _ => {
            numbers[place] = odd;
            numbers.join(" ")
        }
    };
    line.into_bytes()
}
