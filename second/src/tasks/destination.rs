//! The destination task (001, Figure 4). It keeps nothing.

use super::{Message, Tau};

/// The packet that the destination sends up, if any.
pub fn answer(message: Message) -> Option<Message> {
    match message {
        // Lines 3 to 7.
        Message::Join { rate, named } | Message::Probe { rate, named } => Some(Message::Response {
            tau: Tau::Response,
            rate,
            named,
        }),
        // Lines 9 and 10: no link was a bottleneck, so something has changed on the way.
        Message::SetBottleneck { beta: false } => Some(Message::Update),
        // 01, "Added here": it takes these and sends nothing.
        Message::SetBottleneck { beta: true } | Message::Leave => None,
        // These go up and never reach a destination.
        Message::Response { .. } | Message::Update | Message::Bottleneck => None,
    }
}
