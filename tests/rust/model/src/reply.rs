//! The delivery of a reply: what the panel stores, and whether its transaction goes on or ends.

use crate::answer::{Answer, Outcome, Refusal};
use crate::choice::chosen_tag;
use crate::client::State;
use crate::key::{latest, servers_of, version_of, Key, Latest, Version};
use crate::link::{Link, Reply, Request};
use crate::store::Store;
use crate::COORDINATOR;

impl Store {
    /// The link and the reply that can be delivered there, or why none can.
    pub(crate) fn reply_on(&self, client: u32, target: u32) -> Result<(usize, usize, &Reply), Refusal> {
        let (client, target) = self.existing_link(client, target)?;
        self.step_left()?;
        let Link::Reply(reply) = &self.clients[client].links[target] else {
            return Err(Refusal::NothingThere);
        };
        Ok((client, target, reply))
    }

    pub fn deliver_reply(&mut self, client: u32, target: u32) -> Outcome {
        let (client, target, reply) = self.reply_on(client, target)?;
        let reply = reply.clone();
        self.step += 1;
        self.clients[client].links[target] = Link::Nothing;
        Ok(self.receive(client, target, reply))
    }

    fn receive(&mut self, client: usize, target: usize, reply: Reply) -> Answer {
        match reply {
            Reply::SetDone => self.acknowledged(client),
            Reply::Entered { tag } => self.end_write(client, tag),
            Reply::Keys { tag, keys } => {
                self.clients[client].tag = tag;
                self.clients[client].ask_for_keys(|server| keys[server]);
                Answer::Next
            }
            Reply::Got { badge, setpoint } => {
                self.clients[client].keep(target, badge, setpoint);
                self.end_if_answered(client)
            }
            Reply::All { versions } => {
                self.clients[client].versions[target] = versions;
                self.choose_if_complete(client)
            }
            Reply::Log { entries } => {
                self.clients[client].log = entries;
                self.choose_if_complete(client)
            }
        }
    }

    /// "When the last acknowledgement arrives, key and mask go to the head."
    fn acknowledged(&mut self, client: usize) -> Answer {
        let writer = &mut self.clients[client];
        if !writer.servers_answered() {
            return Answer::Wait;
        }
        let key = Key { count: writer.count, client: client as u8 };
        let mask = writer.mask;
        writer.links[COORDINATOR] = Link::Request(Request::Enter { key, mask });
        writer.state = State::WaitingForTag;
        Answer::Next
    }

    /// "The tag's arrival ends the WRITE."
    fn end_write(&mut self, client: usize, tag: usize) -> Answer {
        let writer = &mut self.clients[client];
        writer.tag = tag;
        writer.state = State::Idle;
        self.writes[writer.record].end = Some(self.step);
        Answer::Write { tag }
    }

    /// A and B: the tags shown are those kept since the stations were asked.
    fn end_if_answered(&mut self, client: usize) -> Answer {
        if !self.clients[client].servers_answered() {
            return Answer::Wait;
        }
        let tags = self.clients[client].tags;
        self.end_read(client, &tags)
    }

    /// C: "when all replies are in", the tag is chosen and the setpoints are stored, with their badges.
    fn choose_if_complete(&mut self, client: usize) -> Answer {
        if !self.clients[client].all_answered() {
            return Answer::Wait;
        }
        let tags = self.choose(client);
        self.end_read(client, &tags)
    }

    /// The stations' tags, which C shows and does not keep.
    fn choose(&mut self, client: usize) -> [usize; 16] {
        let reader = &mut self.clients[client];
        let mut tags = [0; 16];
        reader.tag = chosen_tag(&reader.log, &reader.versions, reader.mask);
        for server in servers_of(reader.mask) {
            let Latest { key, tag } = latest(&reader.log, server, reader.tag);
            let version = version_of(&reader.versions[server], key);
            let Version { badge, setpoint, .. } = version.expect("the chosen tag's key was received");
            reader.keep(server, badge, setpoint);
            tags[server] = tag;
        }
        reader.versions = Default::default();
        reader.log.clear();
        tags
    }

    /// Ends a READ that has all it asked for: its tag is recorded, and shown with the setpoints and theirs.
    fn end_read(&mut self, client: usize, tags: &[usize; 16]) -> Answer {
        let reader = &mut self.clients[client];
        reader.state = State::Idle;
        let record = &mut self.reads[reader.record];
        record.tag = reader.tag;
        record.end = Some(self.step);
        Answer::Read { tag: reader.tag, shown: reader.shown(tags) }
    }
}
