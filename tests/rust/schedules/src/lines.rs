//! A step as a line of a schedule.

use model::Step;

/// The line that names a step, without its byte 10.
pub fn line_of(step: &Step) -> Vec<u8> {
    let (letter, numbers) = match step {
        Step::Open { method, servers, clients, setpoints } => ('O', [&[*method, *servers, *clients], &setpoints[..]].concat()),
        Step::BeginWrite { client, mask, badge, setpoints } => {
            ('W', [&[*client, *mask, u32::from(*badge)], &setpoints[..]].concat())
        }
        Step::BeginRead { client, mask } => ('R', vec![*client, *mask]),
        Step::DeliverRequest { client, target } => ('>', vec![*client, *target]),
        Step::DeliverReply { client, target } => ('<', vec![*client, *target]),
        Step::Lose { client, target } => ('!', vec![*client, *target]),
        Step::Resend { client, target } => ('+', vec![*client, *target]),
    };
    let words = numbers.iter().map(|number| format!(" {number}"));
    format!("{letter}{}", words.collect::<String>()).into_bytes()
}
