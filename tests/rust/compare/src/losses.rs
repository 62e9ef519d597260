//! What steps have to do with losses, by names: what a long run must reach.

use model::key::{first_tag_of, version_of};
use model::{Link, Outcome, Reply, Request, Step, Store, COORDINATOR, MOST_HELD};
use std::collections::BTreeMap;

/// A lost request and a lost reply of each kind; sending again in each state; and what finds its key stored or entered already.
#[rustfmt::skip]
pub const DUE: [&str; 22] = [
    "a lost set", "a lost set done", "a lost enter", "a lost entered", "a lost which keys", "a lost keys",
    "a lost get", "a lost got", "a lost get all", "a lost all", "a lost get log", "a lost log",
    "sent again in state 1", "sent again in state 2", "sent again in state 3", "sent again in state 4", "sent again in state 5",
    "sent again in state 5 to the head",
    "a set stored before", "a set stored before, 256 versions held", "an enter entered before", "an enter entered before, 256 entries",
];

/// Deliveries on lost links, which are refused by 9.
pub const REFUSED: [&str; 2] = ["a request on a lost link", "a reply on a lost link"];

/// On tables that no opening leads to: a key at two places.
pub const TWICE: [&str; 2] = ["a set stored twice before", "an enter entered twice before"];

/// READ requests that were answered before and are answered as new, where that is another answer.
pub const ANSWERED_ANEW: [&str; 3] = ["keys answered anew", "all answered anew", "a log answered anew"];

/// What an accepted loss, sending again or delivery of a request is, on the store before it.
pub fn names(store: &Store, step: &Step, outcome: &Outcome) -> Vec<String> {
    let link = |client: u32, target: u32| &store.clients[client as usize].links[target as usize];
    let accepted = outcome.is_ok();
    match *step {
        Step::Lose { client, target } if accepted => vec![format!("a lost {}", held(link(client, target)))],
        Step::Resend { client, target } if accepted => {
            let to_head = if store.clients[client as usize].state as u32 == 5 && target as usize == COORDINATOR {
                " to the head"
            } else {
                ""
            };
            vec![format!("sent again in state {}{to_head}", store.clients[client as usize].state as u32)]
        }
        Step::DeliverRequest { client, target } if accepted => repeated(store, link(client, target), target as usize),
        Step::DeliverRequest { client, target } if on_lost(store, client, target) => vec![REFUSED[0].into()],
        Step::DeliverReply { client, target } if on_lost(store, client, target) => vec![REFUSED[1].into()],
        _ => Vec::new(),
    }
}

fn on_lost(store: &Store, client: u32, target: u32) -> bool {
    let links = store.clients.get(client as usize).map(|client| &client.links);
    links.and_then(|links| links.get(target as usize)) == Some(&Link::Lost)
}

/// The kind of what a link holds, by the table of frames.
pub fn held(link: &Link) -> &'static str {
    match link {
        Link::Request(Request::Set { .. }) => "set",
        Link::Request(Request::Enter { .. }) => "enter",
        Link::Request(Request::WhichKeys) => "which keys",
        Link::Request(Request::Get { .. }) => "get",
        Link::Request(Request::GetAll) => "get all",
        Link::Request(Request::GetLog) => "get log",
        Link::Reply(Reply::SetDone) => "set done",
        Link::Reply(Reply::Entered { .. }) => "entered",
        Link::Reply(Reply::Keys { .. }) => "keys",
        Link::Reply(Reply::Got { .. }) => "got",
        Link::Reply(Reply::All { .. }) => "all",
        Link::Reply(Reply::Log { .. }) => "log",
        Link::Nothing | Link::Lost => "nothing",
    }
}

/// A set or an enter that finds its key.
pub fn repeated(store: &Store, link: &Link, target: usize) -> Vec<String> {
    let (name, held, times, full) = match link {
        Link::Request(Request::Set { key, .. }) => {
            let held = &store.servers[target];
            let times = held.iter().filter(|version| version.key == *key).count();
            assert_eq!(times > 0, version_of(held, *key).is_some());
            ("a set stored", held.len(), times, ", 256 versions held")
        }
        Link::Request(Request::Enter { key, .. }) => {
            let times = store.log.iter().filter(|entry| entry.key == *key).count();
            assert_eq!(times > 0, first_tag_of(&store.log, *key).is_some());
            ("an enter entered", store.log.len(), times, ", 256 entries")
        }
        _ => return Vec::new(),
    };
    let mut found = Vec::new();
    if times > 0 {
        found.push(format!("{name} before"));
    }
    if times > 0 && held == MOST_HELD {
        found.push(format!("{name} before{full}"));
    }
    if times > 1 {
        found.push(format!("{name} twice before"));
    }
    found
}

/// The replies that were lost, and whether the next one on their link is another.
#[derive(Default)]
pub struct Lost(BTreeMap<(u32, u32), Reply>);

impl Lost {
    /// An accepted step, with the store before it and behind it.
    pub fn take(&mut self, before: &Store, step: &Step, after: &Store) -> Option<&'static str> {
        let link = |store: &Store, client: u32, target: u32| store.clients[client as usize].links[target as usize].clone();
        match *step {
            Step::Open { .. } => self.0.clear(),
            Step::Lose { client, target } => {
                if let Link::Reply(reply) = link(before, client, target) {
                    self.0.insert((client, target), reply);
                }
            }
            Step::DeliverReply { client, target } => drop(self.0.remove(&(client, target))),
            Step::DeliverRequest { client, target } => {
                let (Some(old), Link::Reply(new)) = (self.0.get(&(client, target)), link(after, client, target)) else {
                    return None;
                };
                return match new {
                    _ if *old == new => None,
                    Reply::Keys { .. } => Some(ANSWERED_ANEW[0]),
                    Reply::All { .. } => Some(ANSWERED_ANEW[1]),
                    Reply::Log { .. } => Some(ANSWERED_ANEW[2]),
                    _ => panic!("{new:?} is another answer than {old:?}, of a set, an enter or a get"),
                };
            }
            _ => {}
        }
        None
    }
}
