//! The rules as they stood before document 02's E10, which retires method A: how a press of method 1 was opened, and how a WRITE and a READ
//! began on it. Today's steps refuse all three, by 1 and by 4. They are kept so that tests have tables of method 1 in the middle of a run, as
//! a version before saved them, and to play runs as E10 speaks of them: "runs whose opening and accepted begins go by the rules as they stood
//! before this request, kept as definitions for it, and whose other steps, refused begins too, go by these".
//!
//! Under methods 2 and 3 the former rules are today's.

use crate::answer::{Answer, Outcome, Refusal};
use crate::key::latest;
use crate::replay::Player;
use crate::step::Step;
use crate::store::{Method, Store};

impl Store {
    /// "Under 1 panel 0 is the head and holds the log; [...] p is at least 2."
    fn open_formerly(servers: u32, clients: u32, setpoints: &[u32]) -> Result<Store, Refusal> {
        Store::opened(Method::A, 2, servers, clients, setpoints)
    }

    /// Panel 0 "only reads": 4 was "method 1: panel 0 writes".
    fn former_writer(&self, client: u32, mask: u32, setpoints: usize) -> Result<usize, Refusal> {
        let client = self.existing_client(client)?;
        if client == 0 {
            return Err(Refusal::Retired);
        }
        self.free_to_write(client, mask, setpoints)?;
        Ok(client)
    }

    /// "the others only write": 4 was "another reads".
    fn former_reader(&self, client: u32, mask: u32) -> Result<usize, Refusal> {
        let client = self.existing_client(client)?;
        if client != 0 {
            return Err(Refusal::Retired);
        }
        self.free_to_read(client, mask)?;
        Ok(client)
    }

    fn start_read_formerly(&mut self, client: usize, mask: u32) {
        self.record_read(client, mask);
        // "A: take the last tag and its keys from panel 0's log, then ask each masked station for its key."
        let tag = self.last_tag();
        let reader = &mut self.clients[client];
        reader.tag = tag;
        reader.ask_for_keys(|server| latest(&self.log, server, tag));
    }

    /// What the former rules answered to an opening by method 1, or to a begin on a store of it; of other steps they are today's.
    pub fn former_answer(&self, step: &Step) -> Option<Outcome> {
        let retired = self.method == Method::A;
        match step {
            Step::Open { method: 1, servers, clients, setpoints } => {
                Some(Store::open_formerly(*servers, *clients, setpoints).map(|_| Answer::Ok))
            }
            Step::BeginWrite { client, mask, setpoints, .. } if retired => {
                Some(self.former_writer(*client, *mask, setpoints.len()).map(|_| Answer::Ok))
            }
            Step::BeginRead { client, mask } if retired => Some(self.former_reader(*client, *mask).map(|_| Answer::Ok)),
            _ => None,
        }
    }
}

/// A run as E10 speaks of it: what the former rules accept of openings and begins goes by them, and all else by today's.
impl Store {
    pub fn open_mixed(method: u32, servers: u32, clients: u32, setpoints: &[u32]) -> Result<Store, Refusal> {
        match method {
            1 => Store::open_formerly(servers, clients, setpoints),
            _ => Store::open(method, servers, clients, setpoints),
        }
    }

    pub fn begin_write_mixed(&mut self, client: u32, mask: u32, badge: u16, setpoints: &[u32]) -> Outcome {
        match self.former_writer(client, mask, setpoints.len()) {
            Ok(client) if self.method == Method::A => {
                self.start_write(client, mask, badge, setpoints);
                Ok(Answer::Ok)
            }
            _ => self.begin_write(client, mask, badge, setpoints),
        }
    }

    pub fn begin_read_mixed(&mut self, client: u32, mask: u32) -> Outcome {
        match self.former_reader(client, mask) {
            Ok(client) if self.method == Method::A => {
                self.start_read_formerly(client, mask);
                Ok(Answer::Ok)
            }
            _ => self.begin_read(client, mask),
        }
    }

    pub fn take_mixed(&mut self, step: &Step) -> Outcome {
        match step {
            Step::Open { method, servers, clients, setpoints } => {
                *self = Store::open_mixed(*method, *servers, *clients, setpoints)?;
                Ok(Answer::Ok)
            }
            Step::BeginWrite { client, mask, badge, setpoints } => self.begin_write_mixed(*client, *mask, *badge, setpoints),
            Step::BeginRead { client, mask } => self.begin_read_mixed(*client, *mask),
            _ => self.take(step),
        }
    }
}

/// The same, also where none is open yet.
impl Player {
    pub fn take_mixed(&mut self, step: &Step) -> Outcome {
        match (&mut self.store, step) {
            (Some(store), _) => store.take_mixed(step),
            (none, Step::Open { method, servers, clients, setpoints }) => {
                *none = Some(Store::open_mixed(*method, *servers, *clients, setpoints)?);
                Ok(Answer::Ok)
            }
            (None, _) => self.take(step),
        }
    }

    /// Whether the former rules take a step that today's refuse.
    pub fn only_formerly(&self, step: &Step) -> bool {
        match (&self.store, step) {
            (Some(store), _) => store.former_answer(step).is_some_and(|answer| answer.is_ok()),
            (None, Step::Open { method: 1, servers, clients, setpoints }) => {
                Store::open_formerly(*servers, *clients, setpoints).is_ok()
            }
            (None, _) => false,
        }
    }
}
