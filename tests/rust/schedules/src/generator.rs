//! Schedules section by section: each section opens a store, then begins and delivers, with wrong lines between.

use crate::lines::line_of;
use crate::random::Random;
use crate::wrong::{self, badge, Size};
use model::{Link, Method, Outcome, Player, State, Step, Store, MOST_BEGUN};

/// What a section is after.
#[derive(Clone, Copy, PartialEq)]
enum Aim {
    /// Transactions of all kinds, many at a time.
    Overlaps,
    /// As many WRITEs as can begin, and one more; what answers the last of them is lost often, so that full tables are asked again.
    AllWrites,
    /// As many READs as can begin, and one more.
    AllReads,
}

/// By which rules the store goes on, and with that which methods are opened.
#[derive(Clone, Copy, PartialEq)]
enum Rules {
    Today,
    /// Document 02's E10: openings and begins of method 1 by the rules as they stood before it.
    Mixed,
    /// The same, and method 1 alone.
    OfMethod1,
}

/// The setpoint of every WRITE whose setpoints are not its own: tags and badges alone tell these WRITEs apart.
const EQUAL_SETPOINT: u32 = 1800;

/// Of so many steps that are to be accepted one is a loss, and, while something is lost, one of fewer sends it again. With those among the
/// wrong lines, about one line in six is one of the two.
const LOST: usize = 9;
const SENT_AGAIN: usize = 6;

/// A schedule in the making, with the store as the lines so far left it.
pub struct Generator {
    random: Random,
    pub player: Player,
    rules: Rules,
    text: Vec<u8>,
    aim: Aim,
    favourite: usize,
    fresh: u32,
}

/// A text of this many openings. The last line may have no byte 10 behind it.
pub fn schedule(seed: u64, sections: usize) -> Vec<u8> {
    let mut generator = Generator::new(seed);
    if generator.random.chance(1, 3) {
        generator.before_opening();
    }
    for _ in 0..sections {
        generator.section();
    }
    generator.finish()
}

impl Generator {
    pub fn new(seed: u64) -> Generator {
        Generator::by(seed, Rules::Today)
    }

    /// One whose stores are of method 1 too, by the former rules: not for texts, whose lines go by today's.
    pub fn mixed(seed: u64) -> Generator {
        Generator::by(seed, Rules::Mixed)
    }

    /// One whose stores are of method 1 alone.
    pub fn of_method_1(seed: u64) -> Generator {
        Generator::by(seed, Rules::OfMethod1)
    }

    fn by(seed: u64, rules: Rules) -> Generator {
        Generator {
            random: Random::new(seed),
            player: Player::default(),
            rules,
            text: Vec::new(),
            aim: Aim::Overlaps,
            favourite: 0,
            fresh: 1,
        }
    }

    /// The store goes on.
    pub fn take(&mut self, step: &Step) -> Outcome {
        match self.rules {
            Rules::Today => self.player.take(step),
            Rules::Mixed | Rules::OfMethod1 => self.player.take_mixed(step),
        }
    }

    fn push(&mut self, line: &[u8]) {
        // What it answers is for the reader of the text; here only the store matters.
        let _ = self.player.take_line(line);
        self.text.extend(line);
        self.text.push(b'\n');
    }

    fn before_opening(&mut self) {
        for _ in 0..self.random.below(8) {
            let line = match self.random.below(16) {
                0 => line_of(&wrong::opening_by_method_1(&mut self.random)),
                _ => self.wrong_line(),
            };
            self.push(&line);
        }
    }

    /// An opening and the lines behind it.
    fn section(&mut self) {
        self.aim = match self.random.below(24) {
            0 => Aim::AllWrites,
            1 => Aim::AllReads,
            _ => Aim::Overlaps,
        };
        let opening = self.opening();
        self.push(&line_of(&opening));
        for _ in 0..self.length() {
            let line = self.line();
            self.push(&line);
        }
    }

    fn length(&mut self) -> usize {
        match self.aim {
            Aim::Overlaps if self.random.chance(1, 20) => self.random.within(400, 1500),
            Aim::Overlaps => self.random.within(0, 250),
            _ => self.random.within(2200, 3600),
        }
    }

    /// The opening that a section starts with.
    pub fn opening(&mut self) -> Step {
        let method = match self.rules {
            Rules::Today => self.random.within(2, 3) as u32,
            Rules::Mixed => self.random.within(1, 3) as u32,
            Rules::OfMethod1 => 1,
        };
        let small = self.aim != Aim::Overlaps || self.random.chance(1, 2);
        let (most_servers, most_clients) = if small { (3, 4) } else { (16, 16) };
        let servers = self.random.within(1, most_servers) as u32;
        let fewest = if method == 1 { 2 } else { 1 };
        let clients = self.random.within(fewest, most_clients) as u32;
        let setpoints = self.setpoints(servers as usize);
        Step::Open { method, servers, clients, setpoints }
    }

    /// Setpoints that no WRITE gave before, now and then at the ends of their range, or equal ones.
    fn setpoints(&mut self, servers: usize) -> Vec<u32> {
        if self.random.chance(1, 10) {
            return vec![EQUAL_SETPOINT; servers];
        }
        let edge = self.random.chance(1, 20);
        let mut fresh = || {
            self.fresh = self.fresh.wrapping_add(1);
            self.fresh
        };
        let mut setpoints: Vec<u32> = (0..servers).map(|_| fresh()).collect();
        if edge {
            let place = self.random.below(servers);
            setpoints[place] = self.random.pick(&[0, u32::MAX, u32::MAX - 1, 1 << 31]);
        }
        setpoints
    }

    /// The next line. Two of seven are to be refused; with those that the store happens to refuse, one of three is.
    fn line(&mut self) -> Vec<u8> {
        if self.random.chance(2, 7) {
            return self.wrong_line();
        }
        line_of(&self.likely_step())
    }

    fn wrong_line(&mut self) -> Vec<u8> {
        if self.random.chance(1, 2) {
            return self.unreadable_line();
        }
        line_of(&self.wrong_step())
    }

    fn unreadable_line(&mut self) -> Vec<u8> {
        let size = self.size();
        wrong::unreadable(&mut self.random, size)
    }

    /// A step with arguments that mostly do not fit the store.
    pub fn wrong_step(&mut self) -> Step {
        let size = self.size();
        wrong::step_of_any_kind(&mut self.random, size)
    }

    /// The servers and clients of the store, or the most where none is open.
    fn size(&self) -> Size {
        let most = Size { servers: 16, clients: 16 };
        self.player.store.as_ref().map_or(most, |store| Size { servers: store.servers.len(), clients: store.clients.len() })
    }

    /// A step that the store most likely accepts.
    pub fn likely_step(&mut self) -> Step {
        let store = self.player.store.as_ref().expect("opened");
        let Links { holding, lost } = Links::of(store);
        let idle = store.clients.iter().any(|client| client.state == State::Idle);
        let all_begun = self.aim == Aim::AllWrites && store.writes.len() == MOST_BEGUN;
        if !lost.is_empty() && self.random.chance(1, SENT_AGAIN) {
            return self.resend(&lost);
        }
        if let Some(loss) = self.loss(&holding, all_begun) {
            return loss;
        }
        if idle && (self.random.chance(1, 5) || (holding.is_empty() && lost.is_empty())) {
            return self.begin();
        }
        if holding.is_empty() {
            return self.resend(&lost);
        }
        self.delivery(&holding)
    }

    /// The loss of a request or reply, now and then.
    fn loss(&mut self, holding: &[(usize, usize, bool)], all_begun: bool) -> Option<Step> {
        let replies: Vec<_> = holding.iter().copied().filter(|&(.., request)| !request).collect();
        let (from, often) = if all_begun { (&replies[..], 2) } else { (holding, LOST) };
        if from.is_empty() || !self.random.chance(1, often) {
            return None;
        }
        let (client, target, _) = self.random.pick(from);
        Some(Step::Lose { client: client as u32, target: target as u32 })
    }

    /// One of these links is sent again.
    fn resend(&mut self, lost: &[(usize, usize)]) -> Step {
        let (client, target) = self.random.pick(lost);
        Step::Resend { client: client as u32, target: target as u32 }
    }

    /// A delivery on one of these links, often on one of the favourite client's.
    fn delivery(&mut self, waiting: &[(usize, usize, bool)]) -> Step {
        if self.random.chance(1, 30) {
            self.favourite = self.random.below(16);
        }
        let favoured: Vec<_> = waiting.iter().copied().filter(|&(client, ..)| client == self.favourite).collect();
        let prefer = !favoured.is_empty() && self.random.chance(1, 2);
        let (client, target, request) = self.random.pick(if prefer { &favoured } else { waiting });
        let (client, target) = (client as u32, target as u32);
        if request {
            Step::DeliverRequest { client, target }
        } else {
            Step::DeliverReply { client, target }
        }
    }

    /// A begin at a client that is idle, if one of those drawn is.
    fn begin(&mut self) -> Step {
        let store = self.player.store.as_ref().expect("opened");
        let (method, servers, clients) = (store.method, store.servers.len(), store.clients.len());
        let busy: Vec<bool> = store.clients.iter().map(|client| client.state != State::Idle).collect();
        let writes = match self.aim {
            Aim::AllWrites => self.random.chance(9, 10),
            Aim::AllReads => self.random.chance(1, 10),
            Aim::Overlaps => self.random.chance(1, 2),
        };
        let draw = |random: &mut Random| match (method, writes) {
            (Method::A, true) => random.within(1, clients - 1),
            (Method::A, false) => 0,
            _ => random.below(clients),
        };
        let mut client = draw(&mut self.random);
        for _ in 0..4 {
            if busy[client] {
                client = draw(&mut self.random);
            }
        }
        let mask = self.mask(servers);
        let client = client as u32;
        if writes {
            let (badge, setpoints) = (badge(&mut self.random), self.setpoints(servers));
            Step::BeginWrite { client, mask, badge, setpoints }
        } else {
            Step::BeginRead { client, mask }
        }
    }

    fn mask(&mut self, servers: usize) -> u32 {
        let all = (1 << servers) - 1;
        let kind = if self.aim == Aim::Overlaps { self.random.below(3) } else { 0 };
        match kind {
            0 => 1 << self.random.below(servers),
            1 => all,
            _ => (self.random.draw() as u32 & all).max(1),
        }
    }

    /// The whole text: one of ten ends in an unreadable line without byte 10, and a third of the others lack their last byte 10.
    fn finish(mut self) -> Vec<u8> {
        if self.random.chance(1, 10) {
            let line = self.unreadable_line();
            self.text.extend(line);
        } else if self.random.chance(1, 3) {
            self.text.pop();
        }
        self.text
    }
}

/// The links that panels wait for.
#[derive(Default)]
struct Links {
    /// Those that hold something: client, target, and whether it is a request.
    holding: Vec<(usize, usize, bool)>,
    lost: Vec<(usize, usize)>,
}

impl Links {
    fn of(store: &Store) -> Links {
        let mut links = Links::default();
        for (client, row) in store.clients.iter().enumerate() {
            for (target, link) in row.links.iter().enumerate() {
                match link {
                    Link::Nothing => {}
                    Link::Request(_) => links.holding.push((client, target, true)),
                    Link::Reply(_) => links.holding.push((client, target, false)),
                    Link::Lost => links.lost.push((client, target)),
                }
            }
        }
        links
    }
}
