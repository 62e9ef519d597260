//! Printed bytes, gathered and written out by the window.

use std::io::{self, Write};

pub const WINDOW: usize = 1 << 16;
/// More than a line has that is printed: an answer has at most 613 bytes, and a line's number 20.
const LINE_ROOM: usize = 700;

pub struct Printer<W: Write> {
    out: W,
    bytes: Box<[u8; WINDOW + LINE_ROOM]>,
    used: usize,
}

/// 00 to 99.
const PAIRS: [[u8; 2]; 100] = {
    let mut pairs = [[0; 2]; 100];
    let mut number = 0;
    while number < 100 {
        pairs[number] = [b'0' + (number / 10) as u8, b'0' + (number % 10) as u8];
        number += 1;
    }
    pairs
};

impl<W: Write> Printer<W> {
    pub fn new(out: W) -> Printer<W> {
        Printer { out, bytes: Box::new([0; WINDOW + LINE_ROOM]), used: 0 }
    }

    /// All N bytes are stored and the first `length` of them count. A line has at most LINE_ROOM bytes, and `line_done` is called behind
    /// each.
    #[inline(always)]
    pub fn put<const N: usize>(&mut self, text: &[u8; N], length: usize) {
        debug_assert!(self.used + N <= self.bytes.len() && length <= N);
        unsafe { self.bytes.as_mut_ptr().add(self.used).cast::<[u8; N]>().write(*text) };
        self.used += length;
    }

    #[inline(always)]
    pub fn word<const N: usize>(&mut self, text: &[u8; N]) {
        self.put(text, N);
    }

    #[inline(always)]
    pub fn number(&mut self, number: u32) {
        if number < 10 {
            return self.word(&[b'0' + number as u8]);
        }
        let mut digits = [0; 10];
        let (mut left, mut place) = (number, 10);
        while left >= 100 {
            place -= 2;
            digits[place..place + 2].copy_from_slice(&PAIRS[(left % 100) as usize]);
            left /= 100;
        }
        if left >= 10 {
            place -= 2;
            digits[place..place + 2].copy_from_slice(&PAIRS[left as usize]);
        } else {
            place -= 1;
            digits[place] = b'0' + left as u8;
        }
        let length = 10 - place;
        self.bytes[self.used..self.used + length].copy_from_slice(&digits[place..]);
        self.used += length;
    }

    #[inline(always)]
    pub fn line_done(&mut self) -> io::Result<()> {
        if self.used >= WINDOW {
            self.flush()?;
        }
        Ok(())
    }

    #[cold]
    pub fn flush(&mut self) -> io::Result<()> {
        self.out.write_all(&self.bytes[..self.used])?;
        self.used = 0;
        Ok(())
    }
}

/// A line's number as text, counted up in place.
pub struct LineNumber {
    digits: [u8; 20],
    first: usize,
}

impl LineNumber {
    pub fn zero() -> LineNumber {
        LineNumber { digits: [b'0'; 20], first: 19 }
    }

    #[inline(always)]
    pub fn count(&mut self) {
        let mut place = 19;
        while self.digits[place] == b'9' {
            self.digits[place] = b'0';
            place -= 1;
        }
        self.digits[place] += 1;
        self.first = self.first.min(place);
    }

    #[inline(always)]
    pub fn print<W: Write>(&self, printer: &mut Printer<W>) {
        let first = self.first;
        if first < 12 {
            return self.digits[first..].iter().for_each(|&digit| printer.word(&[digit]));
        }
        // Up to eight digits by one store.
        let low = u64::from_be_bytes(*self.digits.last_chunk().expect("20 digits")) << (8 * (first - 12));
        printer.put(&low.to_be_bytes(), 20 - first);
    }
}
