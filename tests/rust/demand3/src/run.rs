//! The steps behind one opening: which transactions they make, with tags, ends and delivery counts.

use crate::text::{Asked, Said, Value};
use crate::{violation, Violation};

const HEAD: usize = 16;

/// What a transaction is, with what only its kind has.
#[derive(Clone, Debug)]
pub enum Kind {
    /// `count` is how many WRITEs its client has begun; `badge` and `setpoints` are those of its begin.
    Write { count: usize, badge: u32, setpoints: Vec<u32> },
    /// What it showed, once it has ended; and its overlap: "all WRITEs in progress at some moment of the READ", those that are in progress
    /// when it begins and those that begin while it is.
    Read { shown: Vec<(usize, Value)>, beside: usize },
}

/// "A transaction begins at an accepted begin and finishes at the next reply delivered to its panel that answers write or read."
#[derive(Clone, Debug)]
pub struct Transaction {
    pub kind: Kind,
    pub client: usize,
    pub mask: u32,
    pub begin: usize,
    pub end: Option<usize>,
    /// A WRITE's by the order of first deliveries at the head, a READ's as shown.
    pub tag: Option<usize>,
    pub deliveries: usize,
    /// Losses on its panel's links, by what was lost.
    pub lost_replies: usize,
    pub lost_requests: usize,
    /// The schedule's line that ended it; before that, the one that began it.
    pub line: usize,
}

impl Transaction {
    pub fn is_write(&self) -> bool {
        matches!(self.kind, Kind::Write { .. })
    }
}

/// The last accepted step on a link, and so what the link holds.
#[derive(Clone, Copy, PartialEq)]
enum Last {
    /// None: nothing, or the request of a begin or of a second round.
    None,
    /// A request was delivered: its reply.
    Request,
    /// A reply was delivered: nothing, or a second round's request.
    Reply,
    /// What it held was lost.
    Loss,
    /// It was sent again: a request.
    Again,
}

/// The history of one opening.
pub struct Run {
    pub method: u32,
    pub opening: Vec<u32>,
    pub transactions: Vec<Transaction>,
    /// The WRITE of each tag, from tag 1.
    pub tagged: Vec<usize>,
    step: usize,
    /// For each client, its transaction in progress.
    current: Vec<Option<usize>>,
    /// For each client and target.
    last: Vec<[Last; 17]>,
    pub sent_again: usize,
}

impl Run {
    pub fn open(method: u32, servers: usize, clients: usize, setpoints: Vec<u32>, line: usize) -> Result<Run, Violation> {
        let fewest = if method == 1 { 2 } else { 1 };
        let fits = (1..=3).contains(&method) && (1..=16).contains(&servers) && (fewest..=16).contains(&clients);
        if !fits || setpoints.len() != servers {
            return Err(violation(line, "an opening is accepted that fits no press"));
        }
        Ok(Run {
            method,
            opening: setpoints,
            transactions: Vec::new(),
            tagged: Vec::new(),
            step: 1,
            current: vec![None; clients],
            last: vec![[Last::None; 17]; clients],
            sent_again: 0,
        })
    }

    /// One step behind the opening, accepted or refused.
    pub fn take(&mut self, asked: Asked, said: Said, line: usize) -> Result<(), Violation> {
        if let Said::No(number) = said {
            return self.refused(&asked, number, line);
        }
        self.step += 1;
        match (asked, said) {
            (Asked::Write { client, mask, badge, setpoints }, Said::Ok) => {
                let count = self.transactions.iter().filter(|one| one.client == client && one.is_write()).count() + 1;
                self.begin(client, mask, Kind::Write { count, badge, setpoints }, line)
            }
            (Asked::Read { client, mask }, Said::Ok) => {
                let beside = self.current.iter().flatten().filter(|&&place| self.transactions[place].is_write()).count();
                self.begin(client, mask, Kind::Read { shown: Vec::new(), beside }, line)
            }
            (Asked::Request { client, target }, Said::Ok) => self.request(client, target, line),
            (Asked::Reply { client, target }, said) if said != Said::Ok => self.reply(client, target, said, line),
            (Asked::Loss { client, target }, Said::Ok) => self.loss(client, target, line),
            (Asked::Again { client, target }, Said::Ok) => self.again(client, target, line),
            _ => Err(violation(line, "this step has no such answer")),
        }
    }

    /// "A request is answered when its delivery leaves the reply on that link": then the reply can be delivered. Likewise what was sent
    /// again can be delivered, a request or reply that is there can be lost, and what was lost can be sent again.
    fn refused(&self, asked: &Asked, number: u32, line: usize) -> Result<(), Violation> {
        let what = match *asked {
            Asked::Request { client, target } if self.last(client, target) == Last::Again => "has a request, and its delivery",
            Asked::Reply { client, target } if self.last(client, target) == Last::Request => "has a reply, and its delivery",
            Asked::Loss { client, target } if self.last(client, target) == Last::Again => "has a request, and its loss",
            Asked::Loss { client, target } if self.last(client, target) == Last::Request => "has a reply, and its loss",
            Asked::Again { client, target } if self.last(client, target) == Last::Loss => "is lost, and sending again",
            _ => return Ok(()),
        };
        Err(violation(line, format!("the link {what} is refused by {number}")))
    }

    /// The last accepted step on a link, where there is such a link.
    fn last(&self, client: usize, target: usize) -> Last {
        self.last.get(client).and_then(|row| row.get(target)).copied().unwrap_or(Last::None)
    }

    fn begin(&mut self, client: usize, mask: u32, kind: Kind, line: usize) -> Result<(), Violation> {
        let all = (1u32 << self.opening.len()) - 1;
        if client >= self.current.len() || mask == 0 || mask > all {
            return Err(violation(line, "a begin is accepted for no panel or no station"));
        }
        if matches!(&kind, Kind::Write { setpoints, .. } if setpoints.len() != self.opening.len()) {
            return Err(violation(line, "a WRITE is accepted without its k setpoints"));
        }
        if self.current[client].is_some() {
            return Err(violation(line, "a transaction begins while its panel's last one is in progress"));
        }
        if matches!(kind, Kind::Write { .. }) {
            self.count_beside_reads();
        }
        self.current[client] = Some(self.transactions.len());
        self.transactions.push(Transaction {
            kind,
            client,
            mask,
            begin: self.step,
            end: None,
            tag: None,
            deliveries: 0,
            lost_replies: 0,
            lost_requests: 0,
            line,
        });
        Ok(())
    }

    /// A WRITE begins beside each READ in progress.
    fn count_beside_reads(&mut self) {
        for &place in self.current.iter().flatten() {
            if let Kind::Read { beside, .. } = &mut self.transactions[place].kind {
                *beside += 1;
            }
        }
    }

    /// The transaction that this link belongs to, on which a step of this name is accepted.
    fn on_link(&self, step: &str, client: usize, target: usize, line: usize) -> Result<usize, Violation> {
        let current = self.current.get(client).copied().flatten();
        let place = current.ok_or_else(|| violation(line, format!("{step} is accepted for a panel that does nothing")))?;
        if target != HEAD && target >= self.opening.len() {
            return Err(violation(line, format!("{step} is accepted for no target")));
        }
        Ok(place)
    }

    /// The same of a delivery, which is counted. On a lost link there is none.
    fn delivered(&mut self, client: usize, target: usize, line: usize) -> Result<usize, Violation> {
        let place = self.on_link("a delivery", client, target, line)?;
        if self.last(client, target) == Last::Loss {
            return Err(violation(line, "a delivery is accepted on a lost link"));
        }
        self.transactions[place].deliveries += 1;
        Ok(place)
    }

    /// "a link's request or reply is lost": a reply exactly where the last accepted step on that link delivered a request.
    fn loss(&mut self, client: usize, target: usize, line: usize) -> Result<(), Violation> {
        let place = self.on_link("a loss", client, target, line)?;
        let transaction = &mut self.transactions[place];
        match std::mem::replace(&mut self.last[client][target], Last::Loss) {
            Last::Loss => return Err(violation(line, "a link is lost that is lost already")),
            Last::Request => transaction.lost_replies += 1,
            Last::None | Last::Reply | Last::Again => transaction.lost_requests += 1,
        }
        Ok(())
    }

    /// "a panel sends a lost request again"
    fn again(&mut self, client: usize, target: usize, line: usize) -> Result<(), Violation> {
        self.on_link("sending again", client, target, line)?;
        if self.last(client, target) != Last::Loss {
            return Err(violation(line, "a link is sent again that is not lost"));
        }
        self.last[client][target] = Last::Again;
        self.sent_again += 1;
        Ok(())
    }

    fn request(&mut self, client: usize, target: usize, line: usize) -> Result<(), Violation> {
        let place = self.delivered(client, target, line)?;
        if self.last(client, target) == Last::Request {
            return Err(violation(line, "a request is delivered on a link that has a reply"));
        }
        self.last[client][target] = Last::Request;
        let transaction = &mut self.transactions[place];
        if transaction.is_write() && target == HEAD && transaction.tag.is_none() {
            self.tagged.push(place);
            transaction.tag = Some(self.tagged.len());
        }
        self.still_short(place, line)
    }

    fn reply(&mut self, client: usize, target: usize, said: Said, line: usize) -> Result<(), Violation> {
        let place = self.delivered(client, target, line)?;
        if self.last(client, target) != Last::Request {
            return Err(violation(line, "a reply is delivered where no request was"));
        }
        self.last[client][target] = Last::Reply;
        match said {
            Said::Write(tag) => self.end_write(place, tag, line),
            Said::Read(tag, shown) => self.end_read(place, tag, shown, line),
            _ => self.still_short(place, line),
        }
    }

    fn end_write(&mut self, place: usize, tag: usize, line: usize) -> Result<(), Violation> {
        let transaction = &mut self.transactions[place];
        if !transaction.is_write() {
            return Err(violation(line, "a READ answers write"));
        }
        if transaction.tag != Some(tag) {
            let own = transaction.tag.map_or("none yet".to_string(), |own| own.to_string());
            return Err(violation(line, format!("write answers {tag}, and the WRITE's tag is {own}")));
        }
        transaction.end = Some(self.step);
        transaction.line = line;
        self.current[transaction.client] = None;
        Ok(())
    }

    fn end_read(&mut self, place: usize, tag: usize, shown: Vec<(usize, Value)>, line: usize) -> Result<(), Violation> {
        let wanted = self.deliveries_of(place);
        let transaction = &mut self.transactions[place];
        let Kind::Read { shown: kept, .. } = &mut transaction.kind else {
            return Err(violation(line, "a WRITE answers read"));
        };
        if let Some(wanted) = wanted.filter(|&wanted| wanted != transaction.deliveries) {
            return Err(violation(line, format!("a READ ends after {} deliveries and not {wanted}", transaction.deliveries)));
        }
        *kept = shown;
        transaction.tag = Some(tag);
        transaction.end = Some(self.step);
        transaction.line = line;
        self.current[transaction.client] = None;
        Ok(())
    }

    /// The number of deliveries at which a READ of m stations ends: 2m under A, 2m + 2 under B and C, and "one delivery more for each of
    /// its lost replies".
    fn deliveries_of(&self, place: usize) -> Option<usize> {
        let transaction = &self.transactions[place];
        let stations = 2 * transaction.mask.count_ones() as usize;
        let without_losses = if self.method == 1 { stations } else { stations + 2 };
        (!transaction.is_write()).then_some(without_losses + transaction.lost_replies)
    }

    /// "an unfinished READ has had fewer of them than the number at which it ends"
    fn still_short(&self, place: usize, line: usize) -> Result<(), Violation> {
        let had = self.transactions[place].deliveries;
        match self.deliveries_of(place) {
            Some(wanted) if had >= wanted => {
                Err(violation(line, format!("a READ has had {had} of {wanted} deliveries and has not ended")))
            }
            _ => Ok(()),
        }
    }
}
