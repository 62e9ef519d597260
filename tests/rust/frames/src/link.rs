//! The message that a link of the model holds, as it crosses the wire.

use crate::Message;
use model::{Link, Reply, Request};

/// The message of a link; none where the link holds nothing, and none where what it held was lost.
pub fn message_on(link: &Link, client: u8, target: u8) -> Option<Message> {
    match link {
        Link::Nothing | Link::Lost => None,
        Link::Request(request) => Some(request_message(request, client, target)),
        Link::Reply(reply) => Some(reply_message(reply, client, target)),
    }
}

fn request_message(request: &Request, client: u8, server: u8) -> Message {
    match *request {
        Request::Set { key, badge, setpoint } => Message::Set { client, server, key, badge, setpoint },
        Request::Enter { key, mask } => Message::Enter { client, key, mask },
        Request::WhichKeys => Message::WhichKeys { client },
        Request::Get { key } => Message::Get { client, server, key },
        Request::GetAll => Message::GetAll { client, server },
        Request::GetLog => Message::GetLog { client },
    }
}

fn reply_message(reply: &Reply, client: u8, server: u8) -> Message {
    match reply {
        Reply::SetDone => Message::SetDone { client, server },
        Reply::Entered { tag } => Message::Entered { client, tag: *tag as u8 },
        Reply::Keys { tag, keys } => Message::Keys { client, tag: *tag as u8, keys: keys.clone() },
        Reply::Got { badge, setpoint } => Message::Got { client, server, badge: *badge, setpoint: *setpoint },
        Reply::All { versions } => Message::All { client, server, versions: versions.clone() },
        Reply::Log { entries } => Message::Log { client, entries: entries.clone() },
    }
}
