//! The begins of a WRITE and of a READ.

use crate::answer::{Answer, Outcome, Refusal};
use crate::client::State;
use crate::history::{ReadRecord, WriteRecord};
use crate::key::{servers_of, Key};
use crate::link::{Link, Request};
use crate::store::{Method, Store};
use crate::{COORDINATOR, MOST_BEGUN};

impl Store {
    /// Document 02, E10: on a store of method 1 "nothing new begins", "any begin on such tables returns 4".
    fn begins(&self) -> Result<(), Refusal> {
        if self.method == Method::A {
            Err(Refusal::Retired)
        } else {
            Ok(())
        }
    }

    /// The client that may begin a WRITE of this mask with so many setpoints, or why it may not.
    pub(crate) fn writer(&self, client: u32, mask: u32, setpoints: usize) -> Result<usize, Refusal> {
        let client = self.existing_client(client)?;
        self.begins()?;
        self.free_to_write(client, mask, setpoints)?;
        Ok(client)
    }

    /// What any WRITE wants of its client, mask and setpoints: 5, 6 and 7.
    pub(crate) fn free_to_write(&self, client: usize, mask: u32, setpoints: usize) -> Result<(), Refusal> {
        self.idle(client)?;
        self.good_mask(mask)?;
        if setpoints != self.servers.len() {
            return Err(Refusal::BadMask);
        }
        if self.writes.len() >= MOST_BEGUN {
            return Err(Refusal::Exhausted);
        }
        self.step_left()
    }

    /// "Begin a WRITE: next count; a request to each masked station; state 1." "Every WRITE carries a 16-bit badge number, 0 allowed":
    /// it stands in the requests, in the record and, so that they can be sent again, in the panel.
    pub fn begin_write(&mut self, client: u32, mask: u32, badge: u16, setpoints: &[u32]) -> Outcome {
        let client = self.writer(client, mask, setpoints.len())?;
        self.start_write(client, mask, badge, setpoints);
        Ok(Answer::Ok)
    }

    pub(crate) fn start_write(&mut self, client: usize, mask: u32, badge: u16, setpoints: &[u32]) {
        self.step += 1;
        let count = self.clients[client].count + 1;
        let key = Key { count, client: client as u8 };
        let writer = &mut self.clients[client];
        writer.state = State::WritingSetpoints;
        writer.count = count;
        writer.mask = mask;
        writer.badge = badge;
        writer.setpoints[..setpoints.len()].copy_from_slice(setpoints);
        for server in servers_of(mask) {
            let setpoint = setpoints[server];
            writer.links[server] = Link::Request(Request::Set { key, badge, setpoint });
        }
        writer.record = self.writes.len();
        self.writes.push(WriteRecord { client, count, tag: 0, begin: self.step, end: None, badge });
    }

    /// The client that may begin a READ of this mask, or why it may not.
    pub(crate) fn reader(&self, client: u32, mask: u32) -> Result<usize, Refusal> {
        let client = self.existing_client(client)?;
        self.begins()?;
        self.free_to_read(client, mask)?;
        Ok(client)
    }

    /// What any READ wants of its client and mask: 5, 6 and 7.
    pub(crate) fn free_to_read(&self, client: usize, mask: u32) -> Result<(), Refusal> {
        self.idle(client)?;
        self.good_mask(mask)?;
        if self.reads.len() >= MOST_BEGUN {
            return Err(Refusal::Exhausted);
        }
        self.step_left()
    }

    /// "Begin a READ."
    pub fn begin_read(&mut self, client: u32, mask: u32) -> Outcome {
        let client = self.reader(client, mask)?;
        self.record_read(client, mask);
        self.ask(client);
        Ok(Answer::Ok)
    }

    /// The step, the mask and the record of a READ that begins.
    pub(crate) fn record_read(&mut self, client: usize, mask: u32) {
        self.step += 1;
        self.clients[client].mask = mask;
        self.clients[client].record = self.reads.len();
        self.reads.push(ReadRecord { client, mask, tag: 0, begin: self.step, end: None });
    }

    /// The first requests of a READ, by the method.
    fn ask(&mut self, client: usize) {
        let reader = &mut self.clients[client];
        match self.method {
            Method::A => unreachable!("nothing begins under method 1"),
            Method::B => {
                reader.links[COORDINATOR] = Link::Request(Request::WhichKeys);
                reader.state = State::AskingCoordinator;
            }
            Method::C => {
                for server in servers_of(reader.mask) {
                    reader.links[server] = Link::Request(Request::GetAll);
                }
                reader.links[COORDINATOR] = Link::Request(Request::GetLog);
                reader.state = State::AskingAll;
            }
        }
    }
}
