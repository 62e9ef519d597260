//! A load as the text of a schedule.

use crate::lines::line_of;
use model::{line, Refusal, Step, Store};

/// What the program that makes loads prints for a text whose first line is `seed length method k p`: the opening, with setpoints 0,
/// and the load's steps; or why there is none.
pub fn load_text(text: &[u8]) -> Vec<u8> {
    let asked = line::lines(text).next().and_then(line::load_of).ok_or(Refusal::Unreadable);
    match asked.and_then(load_steps) {
        Ok(steps) => steps.iter().flat_map(|step| [&line_of(step)[..], b"\n"].concat()).collect(),
        Err(refusal) => format!("{refusal}\n").into_bytes(),
    }
}

/// The opening and the steps behind it.
fn load_steps([seed, length, method, servers, clients]: [u32; 5]) -> Result<Vec<Step>, Refusal> {
    // As many as k, where k can be a press's; no more than that are looked at.
    let setpoints = vec![0; servers.min(17) as usize];
    let mut store = Store::open(method, servers, clients, &setpoints)?;
    let mut steps = vec![Step::Open { method, servers, clients, setpoints }];
    store.play_load(seed, length, |_, step| steps.push(step));
    Ok(steps)
}
