//! The source task (001, Figure 3) with document 01's additions: the rate last told is kept, and D
//! is worked out from the access rate and the present maximum wherever it is read.

use super::{Message, Named, Set, State, Tau};
use crate::fraction::Fraction;
use crate::records::own_limit;

/// The source of one active session.
#[derive(Clone, Copy, Debug, PartialEq, Eq)]
pub struct Source {
    /// The rate of the session's own line, C_e of Figure 3.
    pub access: u64,
    /// The session's present maximum, 0 for none.
    pub maximum: u64,
    /// Whether the session is in R_e or F_e of its own line.
    pub set: Set,
    /// mu of the session at its source.
    pub state: State,
    /// An Update has arrived during a Probe cycle.
    pub upd_rcv: bool,
    /// A max-min fair rate has been assigned.
    pub bneck_rcv: bool,
    /// The rate lambda that the source holds.
    pub rate: Fraction,
    /// The rate last told to the session, none since its join.
    pub told: Option<Fraction>,
}

impl Source {
    /// Lines 3 to 6: the new source, and the Join that it sends. The rate starts as 0/1, like an
    /// entry's, and none has been told (01, "Added here").
    pub fn join(access: u64, maximum: u64) -> (Source, Message) {
        let source = Source {
            access,
            maximum,
            set: Set::R,
            state: State::WaitingResponse,
            upd_rcv: false,
            bneck_rcv: false,
            rate: Fraction::ZERO,
            told: None,
        };
        let rate = source.own_limit();
        let named = Named::Own;
        (source, Message::Join { rate, named })
    }

    /// D, the session's own limit.
    pub fn own_limit(&self) -> Fraction {
        Fraction::whole(own_limit(self.access, self.maximum))
    }

    /// Lines 11 to 18. The rate held and the rate last told stay.
    pub fn change(&mut self, maximum: u64) -> Option<Message> {
        self.maximum = maximum;
        if self.state != State::Idle {
            self.upd_rcv = true;
            return None;
        }
        self.set = Set::R;
        self.upd_rcv = false;
        self.bneck_rcv = false;
        Some(self.probe())
    }

    /// A packet arrives at the source, which sends at most one down. Packets of the other kinds go
    /// down and never reach a source.
    pub fn take(&mut self, message: Message) -> Option<Message> {
        match message {
            Message::Update => self.update(),
            Message::Bottleneck => self.bottleneck(),
            Message::Response { tau, rate, .. } => self.response(tau, rate),
            Message::Join { .. } | Message::Probe { .. } => None,
            Message::SetBottleneck { .. } | Message::Leave => None,
        }
    }

    // Lines 20 to 25. Line 23 leaves upd_rcv as it is.
    fn update(&mut self) -> Option<Message> {
        if self.state != State::Idle {
            self.upd_rcv = true;
            return None;
        }
        self.set = Set::R;
        self.bneck_rcv = false;
        Some(self.probe())
    }

    // Lines 27 to 31. The rate spoken of is the one that the source holds.
    fn bottleneck(&mut self) -> Option<Message> {
        if self.state != State::Idle || self.bneck_rcv {
            return None;
        }
        self.bneck_rcv = true;
        self.told = Some(self.rate);
        Some(self.set_bottleneck())
    }

    // Lines 33 to 47, whatever the source's state.
    fn response(&mut self, tau: Tau, rate: Fraction) -> Option<Message> {
        // Lines 34 to 37.
        if tau == Tau::Update || self.upd_rcv {
            self.upd_rcv = false;
            self.bneck_rcv = false;
            return Some(self.probe());
        }
        // Lines 39 and 44.
        self.rate = rate;
        self.state = State::Idle;
        // Lines 38 to 42.
        if tau == Tau::Bottleneck {
            self.bneck_rcv = true;
            self.told = Some(rate);
            return Some(self.set_bottleneck());
        }
        // Lines 45 to 47, of which line 47 stands inside the `if` of line 45.
        if self.own_limit() == rate {
            self.bneck_rcv = true;
            self.told = Some(rate);
            return Some(Message::SetBottleneck { beta: true });
        }
        None
    }

    // Lines 16 and 17, 23 and 24, 36 and 37.
    fn probe(&mut self) -> Message {
        self.state = State::WaitingResponse;
        Message::Probe {
            rate: self.own_limit(),
            named: Named::Own,
        }
    }

    // Lines 30 and 31, 41 and 42. The packet is sent whether or not the session moves to F.
    fn set_bottleneck(&mut self) -> Message {
        if self.own_limit() > self.rate {
            self.set = Set::F;
        }
        Message::SetBottleneck {
            beta: self.own_limit() == self.rate,
        }
    }
}
