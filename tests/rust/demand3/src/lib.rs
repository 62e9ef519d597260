//! Checks demand 3, the row, on a schedule and what a program printed for it, and on nothing else:
//! it has no store of its own. Transactions, tags, the row, real time, delivery counts and the register
//! are told from the steps and the answers.

mod row;
mod run;
mod text;

use run::Run;
use std::fmt;
use text::{Asked, Said};

/// The first thing that is not as the paper has it. Line 0 is the register, or the row as a whole.
#[derive(Clone, Debug, PartialEq, Eq)]
pub struct Violation {
    pub line: usize,
    pub what: String,
    /// Whether the output has an answer to each line and a register behind them; where it has not, nothing is said of the demand.
    pub fits: bool,
}

impl fmt::Display for Violation {
    fn fmt(&self, out: &mut fmt::Formatter) -> fmt::Result {
        match self.line {
            0 => write!(out, "{}", self.what),
            line => write!(out, "line {line}: {}", self.what),
        }
    }
}

/// What was seen of a schedule in which all is well.
#[derive(Clone, Copy, Debug, Default, PartialEq, Eq)]
pub struct Summary {
    pub lines: usize,
    pub accepted: usize,
    pub refused: usize,
    pub openings: usize,
    pub tagged_writes: usize,
    pub finished_reads: usize,
    pub lost_requests: usize,
    pub lost_replies: usize,
    pub sent_again: usize,
}

pub(crate) fn violation(line: usize, what: impl Into<String>) -> Violation {
    Violation { line, what: what.into(), fits: true }
}

pub(crate) fn unfit(line: usize, what: impl Into<String>) -> Violation {
    Violation { line, what: what.into(), fits: false }
}

/// Checks what was printed for a schedule.
pub fn check(schedule: &[u8], output: &[u8]) -> Result<Summary, Violation> {
    let lines = text::lines(schedule);
    let (answers, register) = parts_of(output, lines.len())?;
    let mut summary = Summary::default();
    let mut run: Option<Run> = None;
    for (number, (line, said)) in (1..).zip(lines.into_iter().zip(answers)) {
        count(&mut summary, &said);
        run = take(run, text::asked(line), said, number, &mut summary)?;
    }
    close(run, Some(&register), &mut summary)?;
    Ok(summary)
}

/// The answers to so many lines, and the lines of the register behind them.
fn parts_of(output: &[u8], lines: usize) -> Result<(Vec<Said>, Vec<&str>), Violation> {
    let output = std::str::from_utf8(output).map_err(|_| unfit(0, "the output is no text"))?;
    if !output.is_empty() && !output.ends_with('\n') {
        return Err(unfit(0, "the output's last line does not end: it is cut"));
    }
    let mut printed: Vec<&str> = output.split_terminator('\n').collect();
    if printed.len() < lines {
        return Err(unfit(0, format!("the schedule has {lines} lines, and the output only {}", printed.len())));
    }
    let register = printed.split_off(lines);
    let answers = (1..).zip(printed).map(|(number, line)| text::said(line, number)).collect::<Result<_, _>>()?;
    match register.iter().find(|line| !line.starts_with("W ") && !line.starts_with("R ")) {
        Some(line) => Err(unfit(0, format!("behind the {lines} answers, no line of a register: {line:?}"))),
        None => Ok((answers, register)),
    }
}

fn count(summary: &mut Summary, said: &Said) {
    summary.lines += 1;
    match said {
        Said::No(_) => summary.refused += 1,
        _ => summary.accepted += 1,
    }
}

/// One line of the schedule with its answer: a new opening ends the run before it.
fn take(run: Option<Run>, asked: Asked, said: Said, line: usize, summary: &mut Summary) -> Result<Option<Run>, Violation> {
    match (asked, said) {
        (Asked::Unreadable, Said::No(13)) => Ok(run),
        (Asked::Unreadable, _) => Err(violation(line, "a line of no shape is answered as a step")),
        (_, Said::No(13)) => Err(violation(line, "a readable line is called unreadable")),
        (Asked::Open { .. }, Said::No(_)) => Ok(run),
        (Asked::Open { method, servers, clients, setpoints }, Said::Ok) => {
            close(run, None, summary)?;
            summary.openings += 1;
            Run::open(method, servers, clients, setpoints, line).map(Some)
        }
        (asked, said) => {
            let Some(mut run) = run else {
                return match said {
                    Said::No(2) => Ok(None),
                    _ => Err(violation(line, "a step before any opening is not refused by 2")),
                };
            };
            run.take(asked, said, line)?;
            Ok(Some(run))
        }
    }
}

/// The end of a run: its row, and for the last run the register as printed.
fn close(run: Option<Run>, register: Option<&[&str]>, summary: &mut Summary) -> Result<(), Violation> {
    let Some(run) = run else {
        return match register {
            Some([first, ..]) => Err(violation(0, format!("a register without an opening: {first}"))),
            _ => Ok(()),
        };
    };
    let row = row::row_of(&run)?;
    row::walk(&run, &row)?;
    row::real_time(&run, &row)?;
    summary.tagged_writes += run.tagged.len();
    summary.finished_reads += row.len() - run.tagged.len();
    summary.lost_requests += run.transactions.iter().map(|one| one.lost_requests).sum::<usize>();
    summary.lost_replies += run.transactions.iter().map(|one| one.lost_replies).sum::<usize>();
    summary.sent_again += run.sent_again;
    match register {
        Some(printed) => row::register(&run, &row, printed),
        None => Ok(()),
    }
}
