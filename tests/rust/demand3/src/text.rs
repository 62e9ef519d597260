//! The two texts: what each line of the schedule asks, and what each line of the output says.

use crate::{unfit, Violation};
use std::fmt;

/// A line of the schedule.
#[derive(Clone, Debug, PartialEq, Eq)]
pub enum Asked {
    Open { method: u32, servers: usize, clients: usize, setpoints: Vec<u32> },
    Write { client: usize, mask: u32, badge: u32, setpoints: Vec<u32> },
    Read { client: usize, mask: u32 },
    Request { client: usize, target: usize },
    Reply { client: usize, target: usize },
    Loss { client: usize, target: usize },
    Again { client: usize, target: usize },
    Unreadable,
}

/// What a station has at a place of the row: a setpoint, and tag and badge of the WRITE that put it there, both 0 for the opening.
#[derive(Clone, Copy, Debug, PartialEq, Eq)]
pub struct Value {
    pub setpoint: u32,
    pub tag: usize,
    pub badge: u32,
}

/// `setpoint@tag#badge`
impl fmt::Display for Value {
    fn fmt(&self, out: &mut fmt::Formatter) -> fmt::Result {
        write!(out, "{}@{}#{}", self.setpoint, self.tag, self.badge)
    }
}

/// A badge has 16 bits.
const BADGES: u32 = 65_536;

/// An answer.
#[derive(Clone, Debug, PartialEq, Eq)]
pub enum Said {
    Ok,
    Wait,
    Next,
    Write(usize),
    Read(usize, Vec<(usize, Value)>),
    No(u32),
}

/// The lines of a text; what stands behind the last byte 10 is one only if it is not empty.
pub fn lines(text: &[u8]) -> Vec<&[u8]> {
    let mut lines: Vec<&[u8]> = text.split(|&byte| byte == b'\n').collect();
    if lines.last().is_some_and(|last| last.is_empty()) {
        lines.pop();
    }
    lines
}

/// A number as the paper writes it: decimal, no leading zero but 0 itself.
fn number(word: &str) -> Option<u32> {
    let plain = word.bytes().all(|byte| byte.is_ascii_digit());
    if !plain || (word.starts_with('0') && word != "0") {
        return None;
    }
    word.parse().ok()
}

/// What a line asks.
pub fn asked(line: &[u8]) -> Asked {
    readable(line).unwrap_or(Asked::Unreadable)
}

fn readable(line: &[u8]) -> Option<Asked> {
    if line.len() > 200 {
        return None;
    }
    let mut words = std::str::from_utf8(line).ok()?.split(' ');
    let letter = words.next()?;
    let numbers: Vec<u32> = words.map(number).collect::<Option<_>>()?;
    let at = |place: usize| numbers.get(place).map(|&number| number as usize);
    let exactly = |length: usize| (numbers.len() == length).then_some(());
    Some(match letter {
        "O" => Asked::Open { method: *numbers.first()?, servers: at(1)?, clients: at(2)?, setpoints: numbers[3..].to_vec() },
        "W" => {
            let badge = numbers.get(2).copied().filter(|&badge| badge < BADGES)?;
            Asked::Write { client: at(0)?, mask: numbers[1], badge, setpoints: numbers[3..].to_vec() }
        }
        "R" => exactly(2).map(|_| Asked::Read { client: numbers[0] as usize, mask: numbers[1] })?,
        ">" | "<" | "!" | "+" => {
            exactly(2)?;
            let (client, target) = (numbers[0] as usize, numbers[1] as usize);
            match letter {
                ">" => Asked::Request { client, target },
                "<" => Asked::Reply { client, target },
                "!" => Asked::Loss { client, target },
                _ => Asked::Again { client, target },
            }
        }
        _ => return None,
    })
}

/// What an output line says; it bears the number of the line that it answers.
pub fn said(printed: &str, line: usize) -> Result<Said, Violation> {
    let answer = printed.strip_prefix(&format!("{line} "));
    let answer = answer.ok_or_else(|| unfit(line, format!("the answer has another line number: {printed:?}")))?;
    answer_of(answer).ok_or_else(|| unfit(line, format!("not an answer: {answer:?}")))
}

fn answer_of(answer: &str) -> Option<Said> {
    let words: Vec<&str> = answer.split(' ').collect();
    Some(match words[..] {
        ["ok"] => Said::Ok,
        ["wait"] => Said::Wait,
        ["next"] => Said::Next,
        ["write", tag] => Said::Write(number(tag)? as usize),
        ["read", tag, ref shown @ ..] => {
            let shown = shown.iter().map(|pair| pair_of(pair)).collect::<Option<_>>()?;
            Said::Read(number(tag)? as usize, shown)
        }
        ["no", refusal] => Said::No(number(refusal)?),
        _ => return None,
    })
}

/// `station=setpoint@tag#badge`
fn pair_of(word: &str) -> Option<(usize, Value)> {
    let (server, value) = word.split_once('=')?;
    let (setpoint, origin) = value.split_once('@')?;
    let (tag, badge) = origin.split_once('#')?;
    let value = Value { setpoint: number(setpoint)?, tag: number(tag)? as usize, badge: number(badge)? };
    Some((number(server)? as usize, value))
}
