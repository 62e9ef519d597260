//! The text of tables, as docs/USING.md has it: `setpoint-store tables 2`, each table's name, its number of words and the words, `end`.

use crate::Refused;
use std::fmt::Write;
use std::str::SplitAsciiWhitespace;
use words::layout::{needed, CLIENTS, SERVERS};
use words::Tables;

/// The number of the format: 1 had rows of 70 words for a panel.
const HEAD: [&str; 3] = ["setpoint-store", "tables", "2"];
const NAMES: [&str; 8] = ["counts", "clients", "links", "keys", "values", "log", "writes", "reads"];
const MOST: usize = 16;
const WORDS_OF_LINE: usize = 16;

/// Sound tables as a text, each cut to what a press of its stations and panels needs: what is behind counts for nothing.
pub fn written(tables: &Tables) -> String {
    let mut text = format!("{}\n", HEAD.join(" "));
    let lengths = needed(tables.count(SERVERS), tables.count(CLIENTS));
    for ((name, table), length) in NAMES.into_iter().zip(tables.all()).zip(lengths) {
        writeln!(text, "{name} {length}").expect("a string takes any text");
        for line in table[..length].chunks(WORDS_OF_LINE) {
            let words: Vec<String> = line.iter().map(u32::to_string).collect();
            writeln!(text, "{}", words.join(" ")).expect("a string takes any text");
        }
    }
    text + "end\n"
}

/// The tables of a text, as long as it says. Whether they are sound, and so long enough, is not asked here.
pub fn read(text: &[u8]) -> Result<Tables, Refused> {
    let text = std::str::from_utf8(text).map_err(|_| Refused("it is no text of tables".into()))?;
    let mut parts = text.split_ascii_whitespace();
    if !HEAD.iter().all(|&word| parts.next() == Some(word)) {
        return Err(Refused(format!("it does not begin with '{}'", HEAD.join(" "))));
    }
    let mut tables = Tables::default();
    for ((name, table), most) in NAMES.into_iter().zip(tables.all_mut()).zip(needed(MOST, MOST)) {
        fill(name, table, most, &mut parts)?;
    }
    match (parts.next(), parts.next()) {
        (Some("end"), None) => Ok(tables),
        _ => Err(Refused("it does not end with 'end' behind the last table".into())),
    }
}

fn fill(name: &str, table: &mut Vec<u32>, most: usize, parts: &mut SplitAsciiWhitespace) -> Result<(), Refused> {
    if parts.next() != Some(name) {
        return Err(Refused(format!("the table {name} is missing")));
    }
    let length = number(parts.next()).ok_or_else(|| Refused(format!("{name} has no number of words")))? as usize;
    if length > most {
        return Err(Refused(format!("{name} has {length} words, and the largest press needs {most}")));
    }
    for place in 0..length {
        let word = number(parts.next());
        table.push(word.ok_or_else(|| Refused(format!("word {place} of {name} is missing, or no number of 32 bits")))?);
    }
    Ok(())
}

/// Sound tables with zeros behind them up to the length that the largest press needs, so that any opening can follow. They stay sound.
pub fn lengthened(mut tables: Tables) -> Tables {
    for (table, most) in tables.all_mut().into_iter().zip(needed(MOST, MOST)) {
        table.resize(most, 0);
    }
    tables
}

/// Decimal, with no leading zero: a word has one text.
fn number(part: Option<&str>) -> Option<u32> {
    let digits = part?;
    let plain = digits.bytes().all(|byte| byte.is_ascii_digit()) && (digits == "0" || !digits.starts_with('0'));
    plain.then(|| digits.parse().ok())?
}
