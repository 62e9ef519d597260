//! What a step answers, and the numbers by which it is refused.

use std::fmt;

/// "Refused": the paper's numbers.
#[derive(Clone, Copy, Debug, PartialEq, Eq)]
pub enum Refusal {
    BadOpening = 1,
    Unsound = 2,
    NoSuchPlace = 3,
    Retired = 4,
    Busy = 5,
    BadMask = 6,
    Exhausted = 7,
    FullOrNotHeld = 8,
    NothingThere = 9,
    CutShort = 10,
    BadField = 11,
    NoRoom = 12,
    Unreadable = 13,
    NothingToLose = 14,
    NotLost = 15,
    BadRecording = 16,
}

/// What a READ shows of a station: "with each setpoint the tag of the WRITE that put it there, 0 for the opening", and "the badge
/// (`0=1800@1#7`) that belongs to the same WRITE as the setpoint beside it".
#[derive(Clone, Copy, Debug, PartialEq, Eq)]
pub struct Shown {
    pub server: usize,
    pub setpoint: u32,
    pub tag: usize,
    pub badge: u32,
}

/// "A delivered reply answers wait, next, write with tag, or read with tag and setpoints. Other accepted steps answer ok."
#[derive(Clone, Debug, PartialEq, Eq)]
pub enum Answer {
    Ok,
    Wait,
    Next,
    Write { tag: usize },
    Read { tag: usize, shown: Vec<Shown> },
}

pub type Outcome = Result<Answer, Refusal>;

impl fmt::Display for Answer {
    fn fmt(&self, out: &mut fmt::Formatter) -> fmt::Result {
        match self {
            Answer::Ok => write!(out, "ok"),
            Answer::Wait => write!(out, "wait"),
            Answer::Next => write!(out, "next"),
            Answer::Write { tag } => write!(out, "write {tag}"),
            Answer::Read { tag, shown } => {
                write!(out, "read {tag}")?;
                let mut show = |one: &Shown| write!(out, " {}={}@{}#{}", one.server, one.setpoint, one.tag, one.badge);
                shown.iter().try_for_each(&mut show)
            }
        }
    }
}

impl fmt::Display for Refusal {
    fn fmt(&self, out: &mut fmt::Formatter) -> fmt::Result {
        write!(out, "no {}", *self as u8)
    }
}

/// An outcome as the yard program prints it.
pub fn printed(outcome: &Outcome) -> String {
    match outcome {
        Ok(answer) => answer.to_string(),
        Err(refusal) => refusal.to_string(),
    }
}

/// An outcome's first word, of a refusal with its number: what answers are counted by.
pub fn word(outcome: &Outcome) -> String {
    match outcome {
        Ok(Answer::Write { .. }) => "write".into(),
        Ok(Answer::Read { .. }) => "read".into(),
        other => printed(other),
    }
}

impl Refusal {
    /// The refusal of a number, 1 to 16.
    pub fn from_number(number: u32) -> Option<Refusal> {
        use Refusal::*;
        let all = [
            BadOpening,
            Unsound,
            NoSuchPlace,
            Retired,
            Busy,
            BadMask,
            Exhausted,
            FullOrNotHeld,
            NothingThere,
            CutShort,
            BadField,
            NoRoom,
            Unreadable,
            NothingToLose,
            NotLost,
            BadRecording,
        ];
        all.into_iter().find(|&refusal| refusal as u32 == number)
    }
}
