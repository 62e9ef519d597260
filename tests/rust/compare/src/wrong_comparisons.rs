//! That `compare recordings` finds comparisons that are wrong in one thing, each within a short run.

use crate::arguments::Arguments;
use crate::pairs::Answer;
use crate::recordings_run::compare_by;
use frames::recording::{compare, Compared, Recording};
use model::Refusal;
use recordings::by_model;

/// What is wrong.
#[derive(Clone, Copy, Debug, PartialEq)]
enum Flaw {
    Nothing,
    /// The place is counted in the first recording that has the frame, and not on the link.
    PlaceInTheRecording,
    /// Frames of equal length are taken for equal.
    OnlyLengthsCompared,
    /// A link is compared as far as both recordings have frames.
    MissingAtTheEndUnseen,
    /// The same where the second recording has more.
    MoreInTheSecondUnseen,
    /// Faults of the second recording are not looked at, and what is good of it is compared.
    FirstFaultsAlone,
    /// A recording of 4,096 frames is refused.
    FullRefused,
    /// One of 4,097 is not.
    OneMoreTaken,
    /// The lowest target is named, then the lowest panel.
    TargetFirst,
    /// The lengths are added up in 32 bits, and as many frames are compared as there are.
    SumsThatWrap,
    /// Bytes behind the last frame are not looked at.
    LeftOverUnseen,
    /// A length of 0 is passed over.
    ZeroLengthPassed,
    /// Of a frame only the header is judged.
    HeaderAloneJudged,
    /// A difference ahead of a fault is named.
    DifferenceAheadOfFault,
    /// The place is the last one that differs.
    LastPlace,
    /// Frames of all links are compared in one order.
    OneOrderOfAll,
}

const FLAWS: [Flaw; 15] = [
    Flaw::PlaceInTheRecording,
    Flaw::OnlyLengthsCompared,
    Flaw::MissingAtTheEndUnseen,
    Flaw::MoreInTheSecondUnseen,
    Flaw::FirstFaultsAlone,
    Flaw::FullRefused,
    Flaw::OneMoreTaken,
    Flaw::TargetFirst,
    Flaw::SumsThatWrap,
    Flaw::LeftOverUnseen,
    Flaw::ZeroLengthPassed,
    Flaw::HeaderAloneJudged,
    Flaw::DifferenceAheadOfFault,
    Flaw::LastPlace,
    Flaw::OneOrderOfAll,
];

type Frame<'a> = ((u8, u8), &'a [u8]);

/// The good frames ahead of the first fault, and whether there is one.
fn judged(Recording { lengths, bytes }: &Recording, flaw: Flaw) -> (Vec<Frame<'_>>, bool) {
    let most = match flaw {
        Flaw::FullRefused => 4095,
        Flaw::OneMoreTaken => 4097,
        _ => 4096,
    };
    let sum = lengths.iter().fold(0u32, |sum, &length| sum.wrapping_add(length));
    let (mut frames, mut rest) = (Vec::new(), &bytes[..]);
    for &length in lengths {
        if length == 0 && flaw == Flaw::ZeroLengthPassed {
            continue;
        }
        let Some((frame, behind)) = rest.split_at_checked(length as usize) else {
            return (frames, flaw != Flaw::SumsThatWrap || sum as usize != bytes.len());
        };
        let good = match flaw {
            Flaw::HeaderAloneJudged => length >= 2 && (1..=12).contains(&(frame[0] / 16)) && frame[1] / 8 <= 16,
            _ => frames::read(frame).is_ok(),
        };
        if !good {
            return (frames, true);
        }
        frames.push(((frame[0] % 16, frame[1] / 8), frame));
        rest = behind;
    }
    let left_over = !rest.is_empty() && flaw != Flaw::LeftOverUnseen;
    (frames, left_over || lengths.len() > most)
}

fn wrong(one: &Recording, other: &Recording, flaw: Flaw) -> Answer {
    let ((one, one_bad), (other, other_bad)) = (judged(one, flaw), judged(other, flaw));
    let difference = difference(&one, &other, flaw);
    let passed = match flaw {
        Flaw::FirstFaultsAlone => !one_bad,
        Flaw::DifferenceAheadOfFault if difference.is_some() => true,
        _ => !one_bad && !other_bad,
    };
    if passed {
        Ok(difference.unwrap_or(Compared::Agree))
    } else {
        Err(Refusal::BadRecording)
    }
}

fn difference(one: &[Frame], other: &[Frame], flaw: Flaw) -> Option<Compared> {
    if flaw == Flaw::OneOrderOfAll {
        let place = (0..one.len().max(other.len())).find(|&place| one.get(place) != other.get(place))?;
        let (client, target) = one.get(place).or(other.get(place))?.0;
        let before = one[..place].iter().filter(|frame| frame.0 == (client, target)).count();
        return Some(Compared::Differ { client, target, place: before });
    }
    let mut links: Vec<(u8, u8)> = (0..16).flat_map(|client| (0..=16).map(move |target| (client, target))).collect();
    if flaw == Flaw::TargetFirst {
        links.sort_by_key(|&(client, target)| (target, client));
    }
    links.into_iter().find_map(|link| on_link(one, other, link, flaw))
}

fn on_link(one: &[Frame], other: &[Frame], (client, target): (u8, u8), flaw: Flaw) -> Option<Compared> {
    let places = |frames: &[Frame]| (0..frames.len()).filter(|&at| frames[at].0 == (client, target)).collect::<Vec<_>>();
    let (left, right) = (places(one), places(other));
    let longest = match flaw {
        Flaw::MissingAtTheEndUnseen => left.len().min(right.len()),
        Flaw::MoreInTheSecondUnseen => left.len(),
        _ => left.len().max(right.len()),
    };
    let differs = |place: &usize| {
        let (frame, beside) = (left.get(*place).map(|&at| one[at].1), right.get(*place).map(|&at| other[at].1));
        match flaw {
            Flaw::OnlyLengthsCompared => frame.map(<[u8]>::len) != beside.map(<[u8]>::len),
            _ => frame != beside,
        }
    };
    let place = match flaw {
        Flaw::LastPlace => (0..longest).rev().find(differs)?,
        _ => (0..longest).find(differs)?,
    };
    let place = match flaw {
        Flaw::PlaceInTheRecording => *left.get(place).or(right.get(place))?,
        _ => place,
    };
    Some(Compared::Differ { client, target, place })
}

/// A run in which every full pair comes once.
fn run(comparing: &dyn Fn(&Recording, &Recording) -> Answer) -> Result<String, String> {
    let arguments = Arguments { subject: "recordings".into(), program: Vec::new(), cases: 2001, seed: 1 };
    compare_by(&arguments, comparing, &by_model)
}

#[test]
fn the_right_one_passes() {
    let passed = run(&|one, other| compare(one, other));
    assert!(passed.is_ok(), "{passed:?}");
    // Without a flaw the one that has them is right too.
    let passed = run(&|one, other| wrong(one, other, Flaw::Nothing));
    assert!(passed.is_ok(), "{passed:?}");
}

#[test]
fn wrong_ones_are_found() {
    for flaw in FLAWS {
        let found = run(&|one, other| wrong(one, other, flaw));
        assert!(found.is_err(), "{flaw:?} is not found");
    }
}

/// A recorder that gives the frame behind the delivery, where there is one, in the place of the one ahead of it.
#[test]
fn a_wrong_recorder_is_found() {
    struct Late(Box<dyn recordings::Recorder>);
    impl recordings::Recorder for Late {
        fn take(&mut self, step: &model::Step) -> model::Outcome {
            self.0.take(step)
        }

        fn frame_on(&self, client: u32, target: u32) -> Option<Vec<u8>> {
            self.0.frame_on(client, target)
        }

        fn take_recorded(&mut self, step: &model::Step) -> (model::Outcome, Option<Vec<u8>>) {
            let (outcome, frame) = self.0.take_recorded(step);
            match *step {
                model::Step::DeliverRequest { client, target } => (outcome, self.frame_on(client, target)),
                _ => (outcome, frame),
            }
        }
    }
    let arguments = Arguments { subject: "recordings".into(), program: Vec::new(), cases: 1, seed: 1 };
    assert!(compare_by(&arguments, &|one, other| compare(one, other), &|| Box::new(Late(by_model()))).is_err());
}
