//! The text of a schedule: its lines, and the step that a line names; and the line that asks for a load.

use crate::step::Step;

/// "lines of at most 200 bytes before byte 10"
pub const LONGEST_LINE: usize = 200;

/// "A line ends at byte 10 or at the end of the text; nothing behind the last byte 10 is no line."
pub fn lines(text: &[u8]) -> impl Iterator<Item = &[u8]> {
    text.split_inclusive(|&byte| byte == 10).map(|line| line.strip_suffix(b"\n").unwrap_or(line))
}

/// The step that a line names, or `None` where it is of any other shape.
pub fn step_of(line: &[u8]) -> Option<Step> {
    if line.len() > LONGEST_LINE {
        return None;
    }
    let (&letter, rest) = line.split_first()?;
    let numbers = numbers(rest)?;
    match (letter, numbers.as_slice()) {
        (b'O', &[method, servers, clients, ref setpoints @ ..]) => {
            Some(Step::Open { method, servers, clients, setpoints: setpoints.to_vec() })
        }
        // "In the yard's input W line it stands after the mask, above 65,535 giving 13"
        (b'W', &[client, mask, badge, ref setpoints @ ..]) => {
            let badge = u16::try_from(badge).ok()?;
            Some(Step::BeginWrite { client, mask, badge, setpoints: setpoints.to_vec() })
        }
        (b'R', &[client, mask]) => Some(Step::BeginRead { client, mask }),
        (b'>', &[client, target]) => Some(Step::DeliverRequest { client, target }),
        (b'<', &[client, target]) => Some(Step::DeliverReply { client, target }),
        // "In the yard these are `! panel target` and `+ panel target`."
        (b'!', &[client, target]) => Some(Step::Lose { client, target }),
        (b'+', &[client, target]) => Some(Step::Resend { client, target }),
        _ => None,
    }
}

/// The numbers of a line `seed length method k p`, or `None` where it is of any other shape.
pub fn load_of(line: &[u8]) -> Option<[u32; 5]> {
    let spaced = [b" ", line].concat();
    numbers(&spaced)?.try_into().ok()
}

/// Numbers with one space before each, to the end of the line.
fn numbers(mut rest: &[u8]) -> Option<Vec<u32>> {
    let mut found = Vec::new();
    while !rest.is_empty() {
        let behind_space = rest.strip_prefix(b" ")?;
        let digits = behind_space.iter().take_while(|byte| byte.is_ascii_digit()).count();
        let (word, behind) = behind_space.split_at(digits);
        found.push(number(word)?);
        rest = behind;
    }
    Some(found)
}

/// "Decimal to 4,294,967,295, no leading zero but 0 itself."
fn number(digits: &[u8]) -> Option<u32> {
    if digits.is_empty() || (digits[0] == b'0' && digits.len() > 1) {
        return None;
    }
    digits.iter().try_fold(0u32, |value, digit| value.checked_mul(10)?.checked_add(u32::from(digit - b'0')))
}
