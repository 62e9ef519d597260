//! Document 02, E2: a load, steps picked one by one from those that are acceptable, by numbers that follow from a seed.

use crate::step::Step;
use crate::store::Store;
use crate::COORDINATOR;

/// "From a 32-bit seed the load advances by times 1,664,525 plus 1,013,904,223, modulo 2^32".
pub fn advance(seed: u32) -> u32 {
    seed.wrapping_mul(1_664_525).wrapping_add(1_013_904_223)
}

/// "the new number, divided by 65,536, times the count of acceptable steps, divided by 65,536 again, both rounded down".
pub fn place(number: u32, count: usize) -> usize {
    (number / 65_536) as usize * count / 65_536
}

/// A step as a load numbers it. Begins are of all stations.
#[derive(Clone, Copy, Debug, PartialEq, Eq)]
pub enum Numbered {
    Write { client: u32 },
    Read { client: u32 },
    Request { client: u32, target: u32 },
    Reply { client: u32, target: u32 },
}

/// "Steps are numbered: WRITEs to all stations by panel, READs of all by panel, then requests, then replies, by panel and target."
pub fn numbered(clients: u32) -> impl Iterator<Item = Numbered> {
    let links = move || (0..clients).flat_map(|client| (0..=COORDINATOR as u32).map(move |target| (client, target)));
    let writes = (0..clients).map(|client| Numbered::Write { client });
    let reads = (0..clients).map(|client| Numbered::Read { client });
    let requests = links().map(|(client, target)| Numbered::Request { client, target });
    let replies = links().map(|(client, target)| Numbered::Reply { client, target });
    writes.chain(reads).chain(requests).chain(replies)
}

/// The step that a pick gives, and the seed behind it.
#[derive(Clone, Debug, PartialEq, Eq)]
pub struct Pick {
    pub seed: u32,
    pub step: Step,
}

/// How many steps a load had, and the seed that is next.
#[derive(Clone, Copy, Debug, PartialEq, Eq)]
pub struct Played {
    pub steps: u32,
    pub seed: u32,
}

impl Store {
    /// The mask of all stations.
    fn all_servers(&self) -> u32 {
        (1 << self.servers.len()) - 1
    }

    /// Whether a step is acceptable: taken now it would not be refused.
    fn accepts(&self, step: Numbered) -> bool {
        match step {
            Numbered::Write { client } => self.writer(client, self.all_servers(), self.servers.len()).is_ok(),
            Numbered::Read { client } => self.reader(client, self.all_servers()).is_ok(),
            Numbered::Request { client, target } => self.request_on(client, target).is_ok(),
            Numbered::Reply { client, target } => self.reply_on(client, target).is_ok(),
        }
    }

    /// The acceptable steps in their numbering.
    pub fn acceptable(&self) -> Vec<Numbered> {
        numbered(self.clients.len() as u32).filter(|&step| self.accepts(step)).collect()
    }

    /// A step with its arguments. "A WRITE's setpoints are all its count"; of badges "the load gives 0".
    pub fn given(&self, step: Numbered) -> Step {
        let mask = self.all_servers();
        match step {
            Numbered::Write { client } => {
                let count = u32::from(self.clients[client as usize].count) + 1;
                Step::BeginWrite { client, mask, badge: 0, setpoints: vec![count; self.servers.len()] }
            }
            Numbered::Read { client } => Step::BeginRead { client, mask },
            Numbered::Request { client, target } => Step::DeliverRequest { client, target },
            Numbered::Reply { client, target } => Step::DeliverReply { client, target },
        }
    }

    /// "Each pick first advances". With nothing acceptable there is no pick, and the seed stays.
    pub fn next_step(&self, seed: u32) -> Option<Pick> {
        let acceptable = self.acceptable();
        if acceptable.is_empty() {
            return None;
        }
        let seed = advance(seed);
        let step = acceptable[place(seed, acceptable.len())];
        Some(Pick { seed, step: self.given(step) })
    }

    /// Plays a load, and tells each step with the store that it leaves.
    /// "The load ends when no step is acceptable or the wanted length is reached."
    pub fn play_load(&mut self, seed: u32, length: u32, mut taken: impl FnMut(&Store, Step)) -> Played {
        let mut played = Played { steps: 0, seed };
        while played.steps < length {
            let Some(Pick { seed, step }) = self.next_step(played.seed) else {
                break;
            };
            self.take(&step).expect("the step is acceptable");
            played = Played { steps: played.steps + 1, seed };
            taken(self, step);
        }
        played
    }
}
