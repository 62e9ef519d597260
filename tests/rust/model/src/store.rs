//! The store and its opening, and the refusals that several steps share.

use crate::answer::{Answer, Outcome, Refusal};
use crate::client::{Client, State};
use crate::history::{ReadRecord, WriteRecord};
use crate::key::{Entry, Key, Version};
use crate::step::Step;
use crate::COORDINATOR;

/// "Method 1 is A, 2 is B, 3 is C."
#[derive(Clone, Copy, Debug, PartialEq, Eq)]
pub enum Method {
    A = 1,
    B = 2,
    C = 3,
}

impl Method {
    pub fn from_number(number: u32) -> Option<Method> {
        match number {
            1 => Some(Method::A),
            2 => Some(Method::B),
            3 => Some(Method::C),
            _ => None,
        }
    }
}

/// An opened press.
#[derive(Clone, Debug, PartialEq, Eq)]
pub struct Store {
    pub method: Method,
    /// The number of the last accepted step: "The opening is step 1".
    pub step: u32,
    pub servers: Vec<Vec<Version>>,
    pub log: Vec<Entry>,
    pub clients: Vec<Client>,
    pub writes: Vec<WriteRecord>,
    pub reads: Vec<ReadRecord>,
}

impl Store {
    /// "Open sets method, k, p, k setpoints; all else empty or 0." Refused by 1, and so is method 1, for every k and p: document 02, E10,
    /// "An opening with method 1 returns 1".
    pub fn open(method: u32, servers: u32, clients: u32, setpoints: &[u32]) -> Result<Store, Refusal> {
        match Method::from_number(method) {
            None | Some(Method::A) => Err(Refusal::BadOpening),
            Some(method) => Store::opened(method, 1, servers, clients, setpoints),
        }
    }

    /// A press of at least so many panels, just opened.
    pub(crate) fn opened(method: Method, fewest: u32, servers: u32, clients: u32, setpoints: &[u32]) -> Result<Store, Refusal> {
        let fits = (1..=16).contains(&servers) && (fewest..=16).contains(&clients) && setpoints.len() == servers as usize;
        if !fits {
            return Err(Refusal::BadOpening);
        }
        // "the opening has badge 0"
        let first = |&setpoint: &u32| vec![Version { key: Key::OPENING, badge: 0, setpoint }];
        Ok(Store {
            method,
            step: 1,
            servers: setpoints.iter().map(first).collect(),
            log: vec![Entry { key: Key::OPENING, mask: (1 << servers) - 1 }],
            clients: vec![Client::default(); clients as usize],
            writes: Vec::new(),
            reads: Vec::new(),
        })
    }

    /// Takes any step on an opened store; a refused one leaves it as it was.
    pub fn take(&mut self, step: &Step) -> Outcome {
        match step {
            Step::Open { method, servers, clients, setpoints } => {
                *self = Store::open(*method, *servers, *clients, setpoints)?;
                Ok(Answer::Ok)
            }
            Step::BeginWrite { client, mask, badge, setpoints } => self.begin_write(*client, *mask, *badge, setpoints),
            Step::BeginRead { client, mask } => self.begin_read(*client, *mask),
            Step::DeliverRequest { client, target } => self.deliver_request(*client, *target),
            Step::DeliverReply { client, target } => self.deliver_reply(*client, *target),
            Step::Lose { client, target } => self.lose(*client, *target),
            Step::Resend { client, target } => self.resend(*client, *target),
        }
    }

    /// The newest tag of the log.
    pub fn last_tag(&self) -> usize {
        self.log.len() - 1
    }

    /// "no such panel": 3.
    pub(crate) fn existing_client(&self, client: u32) -> Result<usize, Refusal> {
        let client = client as usize;
        if client < self.clients.len() {
            Ok(client)
        } else {
            Err(Refusal::NoSuchPlace)
        }
    }

    /// "no such panel or target": targets are the stations and 16.
    pub(crate) fn existing_link(&self, client: u32, target: u32) -> Result<(usize, usize), Refusal> {
        let client = self.existing_client(client)?;
        let target = target as usize;
        if target < self.servers.len() || target == COORDINATOR {
            Ok((client, target))
        } else {
            Err(Refusal::NoSuchPlace)
        }
    }

    /// "panel not idle": 5.
    pub(crate) fn idle(&self, client: usize) -> Result<(), Refusal> {
        if self.clients[client].state == State::Idle {
            Ok(())
        } else {
            Err(Refusal::Busy)
        }
    }

    /// "mask zero or beyond k": 6.
    pub(crate) fn good_mask(&self, mask: u32) -> Result<(), Refusal> {
        if mask != 0 && mask < 1 << self.servers.len() {
            Ok(())
        } else {
            Err(Refusal::BadMask)
        }
    }

    /// "any step but an opening at step number 2^32 - 1": 7.
    pub(crate) fn step_left(&self) -> Result<(), Refusal> {
        if self.step < u32::MAX {
            Ok(())
        } else {
            Err(Refusal::Exhausted)
        }
    }
}
