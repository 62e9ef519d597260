//! A panel: its state, its fields and its links.

use crate::answer::Shown;
use crate::key::{servers_of, Entry, Key, Latest, Version};
use crate::link::{Link, Request};
use crate::COORDINATOR;

/// "States: 0 idle, 1 writing setpoints, 2 waiting for its tag, 3 (B only) asking the head,
/// 4 (A, B) asking for setpoints, 5 (C only) asking all."
#[derive(Clone, Copy, Debug, Default, PartialEq, Eq)]
pub enum State {
    #[default]
    Idle = 0,
    WritingSetpoints = 1,
    WaitingForTag = 2,
    AskingCoordinator = 3,
    AskingSetpoints = 4,
    AskingAll = 5,
}

/// "Per panel: state, last count, mask, tag, setpoints and, under C, the n received from each target."
#[derive(Clone, Debug, Default, PartialEq, Eq)]
pub struct Client {
    pub state: State,
    pub count: u8,
    pub mask: u32,
    pub tag: usize,
    pub setpoints: [u32; 16],
    /// "Under A and B a panel keeps the wanted stations' tags while it asks."
    pub tags: [usize; 16],
    /// "a panel stores it with each wanted setpoint": the badge, here as wide as a word of the tables, since of stations beyond k any
    /// is there.
    pub badges: [u32; 16],
    /// "A panel now also keeps its WRITE's badge"
    pub badge: u16,
    /// "and, in state 4, the keys it asks for, so that it can send them again": here as the words of the tables, since in other states, and
    /// of stations that are not asked, any is there.
    pub asked: [u32; 16],
    /// Under C, the versions received from each server in this READ; n is their number.
    pub versions: [Vec<Version>; 16],
    /// Under C, the log received in this READ.
    pub log: Vec<Entry>,
    /// One link for each server, and the coordinator's at place 16.
    pub links: [Link; 17],
    /// The place, among the WRITEs' or the READs' records, of the one last begun.
    pub record: usize,
}

impl Client {
    /// Whether each link to a masked server is empty.
    pub fn servers_answered(&self) -> bool {
        servers_of(self.mask).all(|server| self.links[server] == Link::Nothing)
    }

    /// Whether each link to a masked server, and that to the coordinator, is empty.
    pub fn all_answered(&self) -> bool {
        self.servers_answered() && self.links[COORDINATOR] == Link::Nothing
    }

    /// "ask each masked station for its key"; key and tag are kept meanwhile, and behind the READ's end.
    pub fn ask_for_keys(&mut self, latest_of: impl Fn(usize) -> Latest) {
        for server in servers_of(self.mask) {
            let Latest { key, tag } = latest_of(server);
            self.links[server] = Link::Request(Request::Get { key });
            self.tags[server] = tag;
            self.asked[server] = key.word();
        }
        self.state = State::AskingSetpoints;
    }

    /// The request that this panel, of this number, waits for at a target: what it sent there, from its own fields alone.
    pub fn request_to(&self, client: usize, target: usize) -> Request {
        let own = Key { count: self.count, client: client as u8 };
        match self.state {
            State::WritingSetpoints => Request::Set { key: own, badge: self.badge, setpoint: self.setpoints[target] },
            State::WaitingForTag => Request::Enter { key: own, mask: self.mask },
            State::AskingCoordinator => Request::WhichKeys,
            State::AskingSetpoints => Request::Get { key: Key::of_word(self.asked[target]) },
            State::AskingAll if target == COORDINATOR => Request::GetLog,
            State::AskingAll => Request::GetAll,
            State::Idle => unreachable!("an idle panel waits for nothing"),
        }
    }

    /// Stores what the asked version of a wanted server has, badge and setpoint together.
    pub fn keep(&mut self, server: usize, badge: u16, setpoint: u32) {
        self.setpoints[server] = setpoint;
        self.badges[server] = u32::from(badge);
    }

    /// The setpoints and badges of the masked servers, as a READ shows them beside these tags.
    pub fn shown(&self, tags: &[usize; 16]) -> Vec<Shown> {
        let (setpoints, badges) = (self.setpoints, self.badges);
        let one = |server| Shown { server, setpoint: setpoints[server], tag: tags[server], badge: badges[server] };
        servers_of(self.mask).map(one).collect()
    }
}
