//! The delivery of a request: what a station or the head does with it, and the reply left on the link.

use crate::answer::{Answer, Outcome, Refusal};
use crate::key::{first_tag_of, latest, version_of, Entry, Version};
use crate::link::{Link, Reply, Request};
use crate::store::Store;
use crate::MOST_HELD;

/// What a request that can be delivered does.
pub(crate) enum Due {
    Append(Version),
    Enter(Entry),
    /// A set or an enter whose key is there already: nothing is stored, and the reply is this one.
    Confirm(Reply),
    TellKeys,
    TellVersion(Version),
    TellVersions,
    TellLog,
}

/// Whether there is a place behind so many versions or entries.
fn room(held: usize) -> Result<(), Refusal> {
    if held < MOST_HELD {
        Ok(())
    } else {
        Err(Refusal::FullOrNotHeld)
    }
}

impl Store {
    /// The link and what its request does there, or why it cannot be delivered.
    pub(crate) fn request_on(&self, client: u32, target: u32) -> Result<(usize, usize, Due), Refusal> {
        let (client, target) = self.existing_link(client, target)?;
        self.step_left()?;
        let Link::Request(request) = &self.clients[client].links[target] else {
            return Err(Refusal::NothingThere);
        };
        Ok((client, target, self.due(target, request)?))
    }

    /// "a set or enter request finds 256 versions or log entries, or a get request a key not held": 8. Ahead of it, "A station that holds
    /// the key already acknowledges without storing; a head that has it answers its first tag; both also when full."
    fn due(&self, target: usize, request: &Request) -> Result<Due, Refusal> {
        match *request {
            Request::Set { key, badge, setpoint } => {
                let held = &self.servers[target];
                match version_of(held, key) {
                    Some(_) => Ok(Due::Confirm(Reply::SetDone)),
                    None => room(held.len()).map(|()| Due::Append(Version { key, badge, setpoint })),
                }
            }
            Request::Enter { key, mask } => match first_tag_of(&self.log, key) {
                Some(tag) => Ok(Due::Confirm(Reply::Entered { tag })),
                None => room(self.log.len()).map(|()| Due::Enter(Entry { key, mask })),
            },
            Request::WhichKeys => Ok(Due::TellKeys),
            Request::Get { key } => version_of(&self.servers[target], key).map(Due::TellVersion).ok_or(Refusal::FullOrNotHeld),
            Request::GetAll => Ok(Due::TellVersions),
            Request::GetLog => Ok(Due::TellLog),
        }
    }

    pub fn deliver_request(&mut self, client: u32, target: u32) -> Outcome {
        let (client, target, due) = self.request_on(client, target)?;
        let reply = self.answered(client, target, due);
        self.clients[client].links[target] = Link::Reply(reply);
        self.step += 1;
        Ok(Answer::Ok)
    }

    fn answered(&mut self, client: usize, target: usize, due: Due) -> Reply {
        match due {
            Due::Append(version) => self.append_version(target, version),
            Due::Enter(entry) => self.append_entry(client, entry),
            Due::Confirm(reply) => reply,
            Due::TellKeys => self.newest_keys(),
            Due::TellVersion(Version { badge, setpoint, .. }) => Reply::Got { badge, setpoint },
            Due::TellVersions => Reply::All { versions: self.servers[target].clone() },
            Due::TellLog => Reply::Log { entries: self.log.clone() },
        }
    }

    /// "A request delivered there appends (key, setpoint)", with the badge after the key.
    fn append_version(&mut self, server: usize, version: Version) -> Reply {
        self.servers[server].push(version);
        Reply::SetDone
    }

    /// "that delivery appends to the log, and the new place is the tag"
    fn append_entry(&mut self, client: usize, entry: Entry) -> Reply {
        self.log.push(entry);
        let tag = self.last_tag();
        self.writes[self.clients[client].record].tag = tag;
        Reply::Entered { tag }
    }

    /// "its reply has the last tag and all k keys", each with its own tag
    fn newest_keys(&self) -> Reply {
        let tag = self.last_tag();
        let keys = (0..self.servers.len()).map(|server| latest(&self.log, server, tag));
        Reply::Keys { tag, keys: keys.collect() }
    }
}
