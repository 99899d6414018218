//! What the three tasks of the B-Neck paper share (001, section III.B and III.C): the packets with
//! what each carries, the states of a session, and the two sets R and F. The tasks themselves:
//! `link` (Figure 2), `source` (Figure 3), `destination` (Figure 4); `held` is what a link keeps.

pub mod destination;
mod held;
pub mod link;
pub mod source;

use crate::fraction::Fraction;

/// The state mu of a session at a link or at its source (001, section III.C).
#[derive(Clone, Copy, Debug, PartialEq, Eq)]
pub enum State {
    /// Nothing is awaited.
    Idle,
    /// An Update is on its way to the source.
    WaitingProbe,
    /// A Join or Probe went down and its Response is awaited.
    WaitingResponse,
}

/// Where a session counts at a link (001, section III.C).
#[derive(Clone, Copy, Debug, PartialEq, Eq)]
pub enum Set {
    /// Restricted here.
    R,
    /// Restricted elsewhere.
    F,
}

/// The link eta that a packet names: the one with the smallest rate found on the path.
#[derive(Clone, Copy, Debug, PartialEq, Eq)]
pub enum Named {
    /// The session's own line, where every Probe cycle starts.
    Own,
    /// A link by its number.
    Link(usize),
}

/// What a Response asks for: tau of 001, section III.B.
#[derive(Clone, Copy, Debug, PartialEq, Eq)]
pub enum Tau {
    /// Nothing more than the rate.
    Response,
    /// A new Probe cycle.
    Update,
    /// The rate is to be taken as max-min fair.
    Bottleneck,
}

/// A packet without its session and whereabouts (001, section III.B).
#[derive(Clone, Copy, Debug, PartialEq, Eq)]
pub enum Message {
    /// A new session arrives.
    Join {
        /// The smallest rate found so far.
        rate: Fraction,
        /// Where it was found.
        named: Named,
    },
    /// The session's rate is worked out again.
    Probe {
        /// The smallest rate found so far.
        rate: Fraction,
        /// Where it was found.
        named: Named,
    },
    /// The answer of the path to a Join or Probe.
    Response {
        /// What is asked of the source.
        tau: Tau,
        /// The rate that the path allows.
        rate: Fraction,
        /// Where it was found.
        named: Named,
    },
    /// A new Probe cycle is asked for.
    Update,
    /// The present rate is to be taken as max-min fair.
    Bottleneck,
    /// Links that do not restrict the session move it to F.
    SetBottleneck {
        /// Whether a bottleneck has been found.
        beta: bool,
    },
    /// The session has left.
    Leave,
}

/// The way a packet travels (001, section II).
#[derive(Clone, Copy, Debug, PartialEq, Eq)]
pub enum Way {
    /// From the source towards the destination.
    Down,
    /// From the destination towards the source.
    Up,
}

impl Message {
    /// The one way on which packets of this kind go (001, section III.B).
    pub fn way(self) -> Way {
        match self {
            Message::Join { .. } | Message::Probe { .. } => Way::Down,
            Message::SetBottleneck { .. } | Message::Leave => Way::Down,
            Message::Response { .. } | Message::Update | Message::Bottleneck => Way::Up,
        }
    }
}

/// A packet that a link sends, to the next or the previous hop of its session.
#[derive(Clone, Copy, Debug, PartialEq, Eq)]
pub struct Sent {
    /// The session, not always the one whose packet was received.
    pub session: usize,
    /// The packet.
    pub message: Message,
}
