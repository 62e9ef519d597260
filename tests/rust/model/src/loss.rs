//! Document 02, E6: "a link's request or reply is lost, and a panel sends a lost request again."

use crate::answer::{Answer, Outcome, Refusal};
use crate::link::Link;
use crate::store::Store;

impl Store {
    /// "Losing from an empty or already lost link returns 14".
    pub fn lose(&mut self, client: u32, target: u32) -> Outcome {
        let (client, target) = self.existing_link(client, target)?;
        self.step_left()?;
        let link = &mut self.clients[client].links[target];
        if matches!(link, Link::Nothing | Link::Lost) {
            return Err(Refusal::NothingToLose);
        }
        *link = Link::Lost;
        self.step += 1;
        Ok(Answer::Ok)
    }

    /// "sending again on a link not lost returns 15". What is sent stands in the panel's own fields.
    pub fn resend(&mut self, client: u32, target: u32) -> Outcome {
        let (client, target) = self.existing_link(client, target)?;
        self.step_left()?;
        let panel = &mut self.clients[client];
        if panel.links[target] != Link::Lost {
            return Err(Refusal::NotLost);
        }
        panel.links[target] = Link::Request(panel.request_to(client, target));
        self.step += 1;
        Ok(Answer::Ok)
    }
}
