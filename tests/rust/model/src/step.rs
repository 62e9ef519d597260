//! The seven steps with their arguments, as numbers not yet judged.

#[derive(Clone, Debug, PartialEq, Eq)]
pub enum Step {
    Open {
        method: u32,
        servers: u32,
        clients: u32,
        setpoints: Vec<u32>,
    },
    BeginWrite {
        client: u32,
        mask: u32,
        badge: u16,
        setpoints: Vec<u32>,
    },
    BeginRead {
        client: u32,
        mask: u32,
    },
    DeliverRequest {
        client: u32,
        target: u32,
    },
    DeliverReply {
        client: u32,
        target: u32,
    },
    /// What the link holds is lost.
    Lose {
        client: u32,
        target: u32,
    },
    /// The panel sends again what it waits for on a lost link.
    Resend {
        client: u32,
        target: u32,
    },
}
