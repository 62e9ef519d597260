//! Answers, from the numbers by which they cross.

use std::fmt;

/// The number of a refusal, 1 to 16; docs/INTEGRATING.md and the header for C say what each means. Everything lent is as before.
#[derive(Clone, Copy, Debug, PartialEq, Eq)]
pub struct Refused(pub u32);

impl fmt::Display for Refused {
    fn fmt(&self, out: &mut fmt::Formatter) -> fmt::Result {
        write!(out, "no {}", self.0)
    }
}

impl std::error::Error for Refused {}

/// What an opening, a begin and a delivered request answer: 0 is ok, any other number refuses.
pub fn accepted(number: u32) -> Result<(), Refused> {
    match number {
        0 => Ok(()),
        number => Err(Refused(number)),
    }
}

/// What a function answers that returns a length, a number of rows or a frame's head: a refusal is 2^64 - 1 less its number.
pub fn answered(number: u64) -> Result<u64, Refused> {
    match u64::MAX - number {
        refusal @ 0..=255 => Err(Refused(refusal as u32)),
        _ => Ok(number),
    }
}

/// A delivered reply's answer as it crosses: the number, and the setpoints that a READ shows with their tags and badges; 0 where it shows
/// none.
#[repr(C)]
#[derive(Clone, Copy, Debug, PartialEq, Eq)]
pub struct Crossing {
    pub number: u64,
    pub setpoints: [u32; 16],
    pub tags: [u32; 16],
    pub badges: [u32; 16],
}

/// A delivered reply's answer.
#[derive(Clone, Copy, Debug, PartialEq, Eq)]
pub enum Arrival {
    Wait,
    Next,
    Write { tag: u32 },
    Read { tag: u32 },
}

impl Crossing {
    /// 2^32 times 1 to 4 is wait, next, write and read, with the tag added; what is smaller refuses.
    pub fn arrival(&self) -> Result<Arrival, Refused> {
        let tag = self.number as u32;
        match self.number >> 32 {
            0 => Err(Refused(tag)),
            1 => Ok(Arrival::Wait),
            2 => Ok(Arrival::Next),
            3 => Ok(Arrival::Write { tag }),
            4 => Ok(Arrival::Read { tag }),
            _ => panic!("{} is no answer", self.number),
        }
    }
}
