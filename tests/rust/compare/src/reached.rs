//! What random schedules reached: which answers, how many lines refused, how many transactions at once, which losses.

use crate::losses::{self, Lost};
use crate::tally::Tally;
use demand3::Summary;
use model::answer::word;
use model::line::step_of;
use model::{Answer, Outcome, Player, Refusal, State, Step, Store};
use std::fmt;

/// Of 100 lines about a third is to be refused, unreadable ones among them.
const LEAST_REFUSED: usize = 30;
const MOST_REFUSED: usize = 37;
/// Every client has a transaction in progress, in a store of the most clients.
const MOST_AT_ONCE: usize = 16;
/// Every answer that a line of a schedule can have, by the line's letter. A 7 is that of the 256th WRITE or READ; no opening leads to a 4.
#[rustfmt::skip]
const ANSWERS: [&str; 34] = [
    "O ok", "O no 1",
    "W ok", "W no 2", "W no 3", "W no 5", "W no 6", "W no 7",
    "R ok", "R no 2", "R no 3", "R no 5", "R no 6", "R no 7",
    "> ok", "> no 2", "> no 3", "> no 9",
    "< wait", "< next", "< write", "< read", "< no 2", "< no 3", "< no 9",
    "! ok", "! no 2", "! no 3", "! no 14",
    "+ ok", "+ no 2", "+ no 3", "+ no 15",
    "no 13",
];

/// Of 100 lines so many are losses or send again what was lost, refused ones too: about one in six.
const LEAST_LOST: usize = 15;
const MOST_LOST: usize = 18;

/// Openings by method 1 that are right in all else: before any other, and while something is open.
const RETIRED: [&str; 2] = ["method 1 opened before all", "method 1 opened later"];

/// Which WRITEs' setpoints READs show, and which badges with setpoints that a WRITE set.
const SHOWN: [&str; 3] = ["of the opening", "of the READ's tag", "of an older WRITE"];
const BADGES: [&str; 3] = ["badge 0", "badge 65535", "another badge above 255"];

/// What was reached so far.
#[derive(Default)]
pub struct Reached {
    total: Summary,
    answers: Tally,
    shown: Tally,
    badges: Tally,
    losses: Tally,
    retired: Tally,
    /// Lines that are losses or send again.
    of_losses: usize,
    /// Transactions that began while others were in progress, and the most in progress at once.
    overlapping: usize,
    at_once: usize,
}

impl Reached {
    /// Adds a schedule, and what was seen of it.
    pub fn add(&mut self, schedule: &[u8], seen: &Summary) {
        self.add_summary(seen);
        let (mut player, mut lost) = (Player::default(), Lost::default());
        for line in model::line::lines(schedule) {
            let (before, step) = (player.store.clone(), step_of(line));
            if step.as_ref().is_some_and(|step| player.only_formerly(step)) {
                self.retired.count(RETIRED[usize::from(before.is_some())]);
            }
            let outcome = player.take_line(line);
            self.answers.count(&name(line, &outcome));
            self.of_losses += usize::from(matches!(step, Some(Step::Lose { .. } | Step::Resend { .. })));
            if let (Some(before), Some(step)) = (&before, &step) {
                losses::names(before, step, &outcome).iter().for_each(|name| self.losses.count(name));
                let anew = outcome.is_ok().then(|| lost.take(before, step, player.store.as_ref().expect("opened")));
                anew.flatten().into_iter().for_each(|name| self.losses.count(name));
            }
            self.add_shown(&outcome);
            if outcome.is_ok() && matches!(line[0], b'W' | b'R') {
                self.add_begin(player.store.as_ref().expect("opened"));
            }
        }
    }

    /// The tags and badges that a READ shows.
    fn add_shown(&mut self, outcome: &Outcome) {
        let Ok(Answer::Read { tag: own, shown }) = outcome else {
            return;
        };
        for one in shown {
            let [opening, newest, older] = SHOWN;
            let origin = match one.tag {
                0 => opening,
                tag if tag == *own => newest,
                _ => older,
            };
            self.shown.count(origin);
            let [none, greatest, other] = BADGES;
            match one.badge {
                _ if one.tag == 0 => {}
                0 => self.badges.count(none),
                65535 => self.badges.count(greatest),
                256.. => self.badges.count(other),
                _ => {}
            }
        }
    }

    fn add_summary(&mut self, seen: &Summary) {
        let total = &mut self.total;
        total.lines += seen.lines;
        total.accepted += seen.accepted;
        total.refused += seen.refused;
        total.openings += seen.openings;
        total.tagged_writes += seen.tagged_writes;
        total.finished_reads += seen.finished_reads;
        total.lost_requests += seen.lost_requests;
        total.lost_replies += seen.lost_replies;
        total.sent_again += seen.sent_again;
    }

    /// A transaction has begun on this store.
    fn add_begin(&mut self, store: &Store) {
        let in_progress = store.clients.iter().filter(|client| client.state != State::Idle).count();
        self.overlapping += usize::from(in_progress > 1);
        self.at_once = self.at_once.max(in_progress);
    }

    /// Fails where something is missing that schedules are for.
    pub fn require_all(&self) -> Result<(), String> {
        self.answers.require(&ANSWERS)?;
        self.retired.require(&RETIRED)?;
        self.shown.require(&SHOWN)?;
        self.badges.require(&BADGES)?;
        self.losses.require(&losses::DUE)?;
        self.losses.require(&losses::REFUSED)?;
        self.losses.require(&losses::ANSWERED_ANEW)?;
        let Summary { lines, refused, .. } = self.total;
        if 100 * refused < LEAST_REFUSED * lines || 100 * refused > MOST_REFUSED * lines {
            return Err(format!("{refused} of {lines} lines are refused, and {LEAST_REFUSED} to {MOST_REFUSED} of 100 are due"));
        }
        let of_losses = self.of_losses;
        if 100 * of_losses < LEAST_LOST * lines || 100 * of_losses > MOST_LOST * lines {
            return Err(format!("{of_losses} of {lines} lines are `!` or `+`, and {LEAST_LOST} to {MOST_LOST} of 100 are due"));
        }
        if self.at_once < MOST_AT_ONCE {
            return Err(format!("at most {} transactions are in progress at once, and {MOST_AT_ONCE} are due", self.at_once));
        }
        Ok(())
    }
}

/// An answer with the letter of its line, where the line is a step.
fn name(line: &[u8], outcome: &Outcome) -> String {
    match outcome {
        Err(Refusal::Unreadable) => word(outcome),
        _ => format!("{} {}", line[0] as char, word(outcome)),
    }
}

impl fmt::Display for Reached {
    fn fmt(&self, out: &mut fmt::Formatter) -> fmt::Result {
        let Summary { lines, accepted, refused, openings, tagged_writes, finished_reads, .. } = self.total;
        let Summary { lost_requests, lost_replies, sent_again, .. } = self.total;
        let share = 100.0 * refused as f32 / lines as f32;
        write!(out, "{lines} lines, {accepted} accepted, {refused} refused ({share:.1} %), {openings} openings, ")?;
        write!(out, "{tagged_writes} tagged WRITEs, {finished_reads} finished READs, ")?;
        write!(out, "{} begun beside others, at most {} at once; ", self.overlapping, self.at_once)?;
        write!(out, "setpoints shown: {}, with {}; answers: {}; ", self.shown, self.badges, self.answers)?;
        let of_losses = 100.0 * self.of_losses as f32 / lines as f32;
        write!(
            out,
            "{} lines of losses ({of_losses:.1} %), {lost_requests} requests and {lost_replies} replies lost, ",
            self.of_losses
        )?;
        write!(out, "{sent_again} sent again: {}; {}", self.losses, self.retired)
    }
}
