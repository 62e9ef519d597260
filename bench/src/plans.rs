//! Lists of steps that the store accepts, each with the name of its kind. They are played on the model while they are made.

use model::key::{first_tag_of, version_of};
use model::{Answer, Link, Method, Outcome, Reply, Request, State, Step, Store, COORDINATOR};

/// An opening and the steps behind it.
pub struct Plan {
    pub opening: Step,
    pub steps: Vec<Step>,
    pub kinds: Vec<&'static str>,
    store: Store,
}

impl Plan {
    pub fn opened(method: u32, servers: u32, clients: u32) -> Plan {
        let setpoints: Vec<u32> = (0..servers).map(|server| 100 + server).collect();
        let store = Store::open(method, servers, clients, &setpoints).expect("a good opening");
        let opening = Step::Open { method, servers, clients, setpoints };
        Plan { opening, steps: Vec::new(), kinds: Vec::new(), store }
    }

    /// The mask of all servers.
    pub fn all(&self) -> u32 {
        (1 << self.store.servers.len()) - 1
    }

    pub fn clients(&self) -> usize {
        self.store.clients.len()
    }

    pub fn begin_write(&mut self, client: usize, mask: u32) {
        let (badge, first) = (self.steps.len() as u16, 1000 * self.steps.len() as u32);
        let setpoints = (0..self.store.servers.len() as u32).map(|server| first + server).collect();
        self.take(Step::BeginWrite { client: client as u32, mask, badge, setpoints });
    }

    pub fn begin_read(&mut self, client: usize, mask: u32) {
        self.take(Step::BeginRead { client: client as u32, mask });
    }

    pub fn request(&mut self, client: usize, target: usize) {
        self.take(Step::DeliverRequest { client: client as u32, target: target as u32 });
    }

    pub fn reply(&mut self, client: usize, target: usize) {
        self.take(Step::DeliverReply { client: client as u32, target: target as u32 });
    }

    pub fn lose(&mut self, client: usize, target: usize) {
        self.take(Step::Lose { client: client as u32, target: target as u32 });
    }

    pub fn resend(&mut self, client: usize, target: usize) {
        self.take(Step::Resend { client: client as u32, target: target as u32 });
    }

    /// The reply on a link is lost, its request sent again and delivered once more.
    pub fn request_again(&mut self, client: usize, target: usize) {
        self.lose(client, target);
        self.resend(client, target);
        self.request(client, target);
    }

    /// Delivers what is on the client's links, requests first, until its transaction has ended. In each round the first request is lost and
    /// sent again, and its reply too.
    pub fn finish_with_losses(&mut self, client: usize) {
        while self.store.clients[client].state != State::Idle {
            let holding = self.holding(client);
            self.lose(client, holding[0]);
            self.resend(client, holding[0]);
            self.deliver_requests(client);
            self.request_again(client, holding[0]);
            for target in holding {
                self.reply(client, target);
            }
        }
    }

    /// Delivers what is on the client's links, requests first, until its transaction has ended.
    pub fn finish(&mut self, client: usize) {
        while self.store.clients[client].state != State::Idle {
            self.deliver_requests(client);
            for target in self.holding(client) {
                self.reply(client, target);
            }
        }
    }

    pub fn deliver_requests(&mut self, client: usize) {
        for target in self.holding(client) {
            self.request(client, target);
        }
    }

    /// A WRITE from its begin to its end.
    pub fn write(&mut self, client: usize, mask: u32) {
        self.begin_write(client, mask);
        self.finish(client);
    }

    fn holding(&self, client: usize) -> Vec<usize> {
        let links = &self.store.clients[client].links;
        (0..=COORDINATOR).filter(|&target| links[target] != Link::Nothing).collect()
    }

    /// Whether the key of a set or an enter is where it goes.
    fn has_key(&self, target: usize, link: &Link) -> bool {
        match link {
            Link::Request(Request::Set { key, .. }) => version_of(&self.store.servers[target], *key).is_some(),
            Link::Request(Request::Enter { key, .. }) => first_tag_of(&self.store.log, *key).is_some(),
            _ => false,
        }
    }

    fn take(&mut self, step: Step) {
        let on = match step {
            Step::DeliverRequest { client, target }
            | Step::DeliverReply { client, target }
            | Step::Lose { client, target }
            | Step::Resend { client, target } => Some((client as usize, target as usize)),
            _ => None,
        };
        let held = |store: &Store| on.map_or(Link::Nothing, |(client, target)| store.clients[client].links[target].clone());
        let before = held(&self.store);
        let found = on.is_some_and(|(_, target)| self.has_key(target, &before));
        let outcome = self.store.take(&step);
        // What was sent says in which state.
        let link = if matches!(step, Step::Resend { .. }) { held(&self.store) } else { before };
        self.kinds.push(kind(self.store.method, &step, &link, found, &outcome));
        self.steps.push(step);
    }
}

/// WRITEs and READs of all servers in turn, of each the same number, READs by client 0. In every tenth turn frames are lost and sent again.
pub fn in_turn(method: u32, servers: u32, clients: u32, times: usize) -> Plan {
    let mut plan = Plan::opened(method, servers, clients);
    let all = plan.all();
    for turn in 0..times {
        let writer = 1 + turn % (plan.clients() - 1);
        for client in [writer, 0] {
            match client {
                0 => plan.begin_read(0, all),
                _ => plan.begin_write(writer, all),
            }
            match turn % 10 {
                9 => plan.finish_with_losses(client),
                _ => plan.finish(client),
            }
        }
    }
    plan
}

/// The name of a step's kind: a begin, what was lost or sent again, or what was delivered and what it answered.
fn kind(method: Method, step: &Step, link: &Link, found: bool, outcome: &Outcome) -> &'static str {
    let answer = outcome.as_ref().expect("plans have accepted steps only");
    match (step, link) {
        (Step::Lose { .. }, Link::Request(_)) => "lose a request",
        (Step::Lose { .. }, _) => "lose a reply",
        (Step::Resend { .. }, Link::Request(request)) => match request {
            Request::Set { .. } => "send again a set",
            Request::Enter { .. } => "send again an enter",
            Request::Get { .. } => "send again a get",
            Request::WhichKeys | Request::GetAll | Request::GetLog => "send again which keys, get all or get log",
        },
        (Step::BeginWrite { .. }, _) => "begin a WRITE",
        (Step::BeginRead { .. }, _) => match method {
            Method::A => unreachable!("nothing begins under A"),
            Method::B => "begin a READ, B",
            Method::C => "begin a READ, C",
        },
        (_, Link::Request(request)) => match request {
            Request::Set { .. } if found => "request set of a key held",
            Request::Enter { .. } if found => "request enter of a key entered",
            Request::Set { .. } => "request set",
            Request::Enter { .. } => "request enter",
            Request::WhichKeys => "request which keys",
            Request::Get { .. } => "request get",
            Request::GetAll => "request get all",
            Request::GetLog => "request get log",
        },
        (_, Link::Reply(reply)) => match (reply, answer) {
            (Reply::SetDone, Answer::Wait) => "reply set done: wait",
            (Reply::SetDone, _) => "reply set done, the last: next",
            (Reply::Entered { .. }, _) => "reply entered: write",
            (Reply::Keys { .. }, _) => "reply keys: next",
            (Reply::Got { .. }, Answer::Wait) => "reply got: wait",
            (Reply::Got { .. }, _) => "reply got, the last: read",
            (Reply::All { .. } | Reply::Log { .. }, Answer::Wait) => "reply all or log: wait",
            (Reply::All { .. } | Reply::Log { .. }, _) => "reply all or log, the last: read",
        },
        (_, Link::Nothing | Link::Lost) => unreachable!("a delivery finds something"),
    }
}

#[cfg(test)]
mod tests {
    use super::*;
    use crate::steps::METHODS;
    use std::collections::BTreeSet;

    /// The kinds that losses bring are in the plans that are measured, beside those that were there.
    #[test]
    fn kinds_of_plans() {
        let kinds: BTreeSet<&str> = METHODS.iter().flat_map(|&method| in_turn(method, 4, 4, 20).kinds).collect();
        for kind in [
            "lose a request",
            "lose a reply",
            "send again a set",
            "send again an enter",
            "send again a get",
            "send again which keys, get all or get log",
            "request set of a key held",
            "request enter of a key entered",
            "request set",
            "request enter",
        ] {
            assert!(kinds.contains(kind), "{kind}: {kinds:?}");
        }
        assert_eq!(kinds.len(), 8 + 2 + 1 + 6 + 8);
    }
}
