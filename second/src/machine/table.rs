//! The machine's table as it is lent: plain numbers, wide enough that a damaged one can be handed
//! in. What the numbers mean stands beside each; 14 (in `handed`) says which ones are sound.
//!
//! What does not exist is not looked at, one way for all: the capacity of an undeclared link, an
//! entry whose session is in neither R nor F of its link, every field but the standing of a source
//! that never joined, path places past the path's length, the rate told where none was, and the
//! fields of a packet that its kind does not carry.

use crate::records::{LINKS, OWN, PATH_LINKS, SESSIONS, UNUSED};

/// A flag that is off.
pub const NO: u64 = 0;
/// A flag that is on.
pub const YES: u64 = 1;

/// mu: nothing is awaited.
pub const IDLE: u64 = 0;
/// mu: an Update is on its way to the source.
pub const WAITING_PROBE: u64 = 1;
/// mu: a Response is awaited.
pub const WAITING_RESPONSE: u64 = 2;

/// The session has never joined; its source has no path.
pub const NEVER_JOINED: u64 = 0;
/// The session has joined and not left.
pub const ACTIVE: u64 = 1;
/// The session has left; its source keeps the path for the packets still travelling.
pub const LEFT: u64 = 2;

/// At the source: F of its own line does not hold the session. It is in R, or in neither where it
/// has left.
pub const NOT_IN_F: u64 = 0;
/// At the source: the session is in F of its own line.
pub const IN_F: u64 = 1;

/// A packet's direction: downstream.
pub const DOWN: u64 = 0;
/// A packet's direction: upstream.
pub const UP: u64 = 1;

/// A packet's kind: Join.
pub const JOIN: u64 = 0;
/// A packet's kind: Probe.
pub const PROBE: u64 = 1;
/// A packet's kind: Response.
pub const RESPONSE: u64 = 2;
/// A packet's kind: Update.
pub const UPDATE: u64 = 3;
/// A packet's kind: Bottleneck.
pub const BOTTLENECK: u64 = 4;
/// A packet's kind: SetBottleneck.
pub const SET_BOTTLENECK: u64 = 5;
/// A packet's kind: Leave.
pub const LEAVE: u64 = 6;

/// tau of a Response: RESPONSE.
pub const TAU_RESPONSE: u64 = 0;
/// tau of a Response: UPDATE.
pub const TAU_UPDATE: u64 = 1;
/// tau of a Response: BOTTLENECK.
pub const TAU_BOTTLENECK: u64 = 2;

/// What a link keeps of one session. It exists where the session's bit is in R or F; when a Leave
/// takes it out, it becomes the blank one.
#[derive(Clone, Copy, Debug, PartialEq, Eq)]
pub struct Entry {
    /// `IDLE`, `WAITING_PROBE` or `WAITING_RESPONSE`.
    pub state: u64,
    /// The rate's numerator.
    pub num: u64,
    /// The rate's denominator.
    pub den: u64,
}

/// A link, declared or not.
#[derive(Clone, Copy, Debug, PartialEq, Eq)]
pub struct Link {
    /// `YES` or `NO`.
    pub declared: u64,
    /// C, 1 to 1,000,000.
    pub capacity: u64,
    /// R as a word of 32 bits, bit k for session k.
    pub r: u64,
    /// F as a word of 32 bits, bit k for session k.
    pub f: u64,
    /// Place k for session k.
    pub entries: [Entry; SESSIONS],
}

/// A session's source. When the session leaves, R and F of its own line become empty (001, Figure 3,
/// line 9), which the standing and `set` say; the other fields stay as they were.
#[derive(Clone, Copy, Debug, PartialEq, Eq)]
pub struct Source {
    /// `NEVER_JOINED`, `ACTIVE` or `LEFT`.
    pub standing: u64,
    /// The access rate, 1 to 1,000,000.
    pub access: u64,
    /// The present maximum, 0 for none, up to the access rate (02, §1).
    pub maximum: u64,
    /// How many links the path has, 1 to 8.
    pub length: u64,
    /// The links in path order; unused places are 255 after a step of the source.
    pub path: [u64; PATH_LINKS],
    /// `NOT_IN_F` or `IN_F`.
    pub set: u64,
    /// `IDLE`, `WAITING_PROBE` or `WAITING_RESPONSE`.
    pub state: u64,
    /// `YES` or `NO`: an update has been noted.
    pub upd_rcv: u64,
    /// `YES` or `NO`.
    pub bneck_rcv: u64,
    /// The numerator of the rate held.
    pub num: u64,
    /// The denominator of the rate held.
    pub den: u64,
    /// `YES` or `NO`: a rate has been told since the join.
    pub told: u64,
    /// The numerator of the rate last told.
    pub told_num: u64,
    /// The denominator of the rate last told.
    pub told_den: u64,
}

/// A packet in flight. Join and Probe carry a rate and the link named, Response these and tau,
/// SetBottleneck beta. Fields that its kind does not carry are sent blank: rate 0/1, the own line
/// named, `TAU_RESPONSE` and `NO`.
#[derive(Clone, Copy, Debug, PartialEq, Eq)]
pub struct Packet {
    /// `JOIN` to `LEAVE`.
    pub kind: u64,
    /// 0 to 31.
    pub session: u64,
    /// The hop that it is about to reach: 0 the source, 1 to n the links, n+1 the destination.
    pub hop: u64,
    /// `DOWN` or `UP`.
    pub direction: u64,
    /// lambda's numerator.
    pub num: u64,
    /// lambda's denominator.
    pub den: u64,
    /// eta: a link 0 to 63, or 64 for the session's own line.
    pub named: u64,
    /// `TAU_RESPONSE`, `TAU_UPDATE` or `TAU_BOTTLENECK`.
    pub tau: u64,
    /// beta: `YES` or `NO`.
    pub beta: u64,
}

/// The whole table: 64 links, 32 sources, and the packets in order of sending.
#[derive(Clone, Debug, PartialEq, Eq)]
pub struct Table {
    /// Place k for link k.
    pub links: [Link; LINKS],
    /// Place k for session k.
    pub sources: [Source; SESSIONS],
    /// At most 256, the earliest sent first.
    pub packets: Vec<Packet>,
}

impl Entry {
    /// What stands where there is no entry. An entry starts with rate 0/1 (01, "Added here").
    pub const BLANK: Entry = Entry {
        state: IDLE,
        num: 0,
        den: 1,
    };
}

impl Link {
    /// A link that is not declared.
    pub const UNDECLARED: Link = Link {
        declared: NO,
        capacity: 0,
        r: 0,
        f: 0,
        entries: [Entry::BLANK; SESSIONS],
    };

    /// Whether the link holds the session, in R or in F.
    pub fn holds(&self, session: usize) -> bool {
        (self.r | self.f) >> session & 1 == 1
    }
}

impl Source {
    /// A source that never joined.
    pub const BLANK: Source = Source {
        standing: NEVER_JOINED,
        access: 0,
        maximum: 0,
        length: 0,
        path: [UNUSED as u64; PATH_LINKS],
        set: NOT_IN_F,
        state: IDLE,
        upd_rcv: NO,
        bneck_rcv: NO,
        num: 0,
        den: 1,
        told: NO,
        told_num: 0,
        told_den: 1,
    };

    /// Whether the session has joined and not left (001, section II).
    pub fn is_active(&self) -> bool {
        self.standing == ACTIVE
    }

    /// The links of the path in path order; none where the session never joined. Assumes a length
    /// of at most 8.
    pub fn path_links(&self) -> &[u64] {
        if self.standing == NEVER_JOINED {
            &[]
        } else {
            &self.path[..self.length as usize]
        }
    }

    /// The hop at which a link stands on the path, if it does: 1 to n.
    pub fn hop_of(&self, link: usize) -> Option<u64> {
        let place = self.path_links().iter().position(|&on| on == link as u64)?;
        Some(place as u64 + 1)
    }
}

impl Packet {
    /// The fields that a kind does not carry.
    pub const BLANK: Packet = Packet {
        kind: UPDATE,
        session: 0,
        hop: 0,
        direction: UP,
        num: 0,
        den: 1,
        named: OWN,
        tau: TAU_RESPONSE,
        beta: NO,
    };

    /// Whether the packet's kind carries a rate lambda and the link eta that imposed it (001,
    /// section III.B).
    pub fn carries_rate(&self) -> bool {
        matches!(self.kind, JOIN | PROBE | RESPONSE)
    }
}

impl Table {
    /// No link declared, no session ever joined, no packet in flight.
    pub fn empty() -> Table {
        Table {
            links: [Link::UNDECLARED; LINKS],
            sources: [Source::BLANK; SESSIONS],
            packets: Vec::new(),
        }
    }
}
