//! The link task (001, Figure 2) with document 01's additions: the packets that are dropped, and
//! refusal 12 for every partial sum and B that a rule reads or leaves behind.

pub use super::held::{Bound, Entry, Link};

use super::{Message, Named, Sent, Set, State, Tau};
use crate::fraction::Fraction;
use crate::records::Refusal;

impl Link {
    /// A packet of `session` arrives at this link: what is sent, in order of sending, or refusal
    /// 12, after which the link is not to be used.
    pub fn take(&mut self, session: usize, message: Message) -> Result<Vec<Sent>, Refusal> {
        let sent = self.step(session, message)?;
        // Refusal 12 also looks at this link's sums and B after the step.
        self.bottleneck_rate()?;
        Ok(sent)
    }

    // One packet by its rule, or dropped (01, "Added here").
    fn step(&mut self, session: usize, message: Message) -> Result<Vec<Sent>, Refusal> {
        let Some(entry) = self.held.get(&session).copied() else {
            return self.step_without_entry(session, message);
        };
        match message {
            // Dropped: a Join at a link that already holds its session.
            Message::Join { .. } => Ok(Vec::new()),
            Message::Probe { rate, named } => self.probe(session, rate, named),
            Message::Response { tau, rate, named } => {
                if entry.set == Set::R && entry.state == State::WaitingResponse {
                    self.response(session, tau, rate, named)
                } else {
                    // Dropped: nobody here waits for it.
                    Ok(Vec::new())
                }
            }
            Message::Update => Ok(self.update(session)),
            Message::Bottleneck => Ok(bottleneck(session, entry)),
            Message::SetBottleneck { beta } => self.set_bottleneck(session, entry, beta),
            Message::Leave => self.leave(session),
        }
    }

    // A link that does not hold the session works on a Join, passes a Leave on, and drops the rest.
    fn step_without_entry(
        &mut self,
        session: usize,
        message: Message,
    ) -> Result<Vec<Sent>, Refusal> {
        match message {
            Message::Join { rate, named } => self.join(session, rate, named),
            Message::Leave => Ok(vec![Sent { session, message }]),
            _ => Ok(Vec::new()),
        }
    }

    // Lines 4 to 10, the F check: the Updates that it sends.
    fn process_new_restricted(&mut self) -> Result<Vec<Sent>, Refusal> {
        let mut b = self.bottleneck_rate()?;
        // Line 5: somebody in F has at least B exactly if the highest there has.
        while let Some(highest) = self
            .highest_in_f()
            .filter(|&highest| Bound::Rate(highest) >= b)
        {
            // Lines 7 and 8.
            for entry in self.held.values_mut() {
                if entry.set == Set::F && entry.rate == highest {
                    entry.set = Set::R;
                }
            }
            b = self.bottleneck_rate()?;
        }
        // Lines 9 and 10.
        let above = self.idle_restricted(|rate| Bound::Rate(rate) > b);
        Ok(self.update_each(above))
    }

    // Lines 12 to 16. An entry starts with rate 0/1 (01, "Added here").
    fn join(&mut self, session: usize, rate: Fraction, named: Named) -> Result<Vec<Sent>, Refusal> {
        let entry = Entry {
            set: Set::R,
            state: State::WaitingResponse,
            rate: Fraction::ZERO,
        };
        self.held.insert(session, entry);
        let mut sent = self.process_new_restricted()?;
        let (rate, named) = self.smaller(rate, named)?;
        let message = Message::Join { rate, named };
        sent.push(Sent { session, message });
        Ok(sent)
    }

    // Lines 30 to 36.
    fn probe(
        &mut self,
        session: usize,
        rate: Fraction,
        named: Named,
    ) -> Result<Vec<Sent>, Refusal> {
        let entry = self.entry(session);
        entry.state = State::WaitingResponse;
        let mut sent = Vec::new();
        if entry.set == Set::F {
            entry.set = Set::R;
            sent = self.process_new_restricted()?;
        }
        let (rate, named) = self.smaller(rate, named)?;
        let message = Message::Probe { rate, named };
        sent.push(Sent { session, message });
        Ok(sent)
    }

    // Lines 15 and 35.
    fn smaller(&self, rate: Fraction, named: Named) -> Result<(Fraction, Named), Refusal> {
        match self.bottleneck_rate()? {
            Bound::Rate(b) if rate > b => Ok((b, Named::Link(self.number))),
            _ => Ok((rate, named)),
        }
    }

    // Lines 18 to 28, of which lines 21 to 27 stand inside the `else` of line 20.
    fn response(
        &mut self,
        session: usize,
        mut tau: Tau,
        rate: Fraction,
        mut named: Named,
    ) -> Result<Vec<Sent>, Refusal> {
        let mut sent = Vec::new();
        if tau == Tau::Update {
            // Line 19.
            self.entry(session).state = State::WaitingProbe;
        } else {
            let b = self.bottleneck_rate()?;
            if self.agrees(rate, named, b) {
                // Line 22.
                let entry = self.entry(session);
                entry.state = State::Idle;
                entry.rate = rate;
            } else {
                // Line 24.
                tau = Tau::Update;
                self.entry(session).state = State::WaitingProbe;
            }
            // Lines 25 to 27, of which line 27 stands inside the `if` of line 25.
            if self.all_restricted_idle_at(b) {
                tau = Tau::Bottleneck;
                named = Named::Link(self.number);
                sent = self.bottleneck_each_but(session);
            }
        }
        // Line 28.
        let message = Message::Response { tau, rate, named };
        sent.push(Sent { session, message });
        Ok(sent)
    }

    // Line 21: the packet's rate agrees with this link's B.
    fn agrees(&self, rate: Fraction, named: Named, b: Bound) -> bool {
        if named == Named::Link(self.number) {
            Bound::Rate(rate) == b
        } else {
            Bound::Rate(rate) <= b
        }
    }

    // Line 27.
    fn bottleneck_each_but(&self, session: usize) -> Vec<Sent> {
        self.restricted()
            .filter(|&(other, _)| other != session)
            .map(|(other, _)| Sent {
                session: other,
                message: Message::Bottleneck,
            })
            .collect()
    }

    // Lines 38 to 40.
    fn update(&mut self, session: usize) -> Vec<Sent> {
        if self.entry(session).state == State::Idle {
            self.update_each(vec![session])
        } else {
            Vec::new()
        }
    }

    // Lines 45 to 55.
    fn set_bottleneck(
        &mut self,
        session: usize,
        entry: Entry,
        beta: bool,
    ) -> Result<Vec<Sent>, Refusal> {
        let b = self.bottleneck_rate()?;
        let own = Bound::Rate(entry.rate);
        let on = |beta| Sent {
            session,
            message: Message::SetBottleneck { beta },
        };
        // Lines 46 and 47. With R empty "for all r in R" holds.
        if self.all_restricted_idle_at(b) {
            return Ok(vec![on(true)]);
        }
        // Lines 48 to 53.
        if own < b && entry.state == State::Idle {
            let at_b = self.idle_restricted(|rate| Bound::Rate(rate) == b);
            let mut sent = self.update_each(at_b);
            self.entry(session).set = Set::F;
            sent.push(on(beta));
            return Ok(sent);
        }
        // Lines 54 and 55.
        if entry.state == State::Idle && own == b {
            return Ok(vec![on(beta)]);
        }
        Ok(Vec::new())
    }

    // Lines 57 to 62. Line 58 reads R and B as they are before the session is taken out.
    fn leave(&mut self, session: usize) -> Result<Vec<Sent>, Refusal> {
        let b = self.bottleneck_rate()?;
        let mut at_b = self.idle_restricted(|rate| Bound::Rate(rate) == b);
        at_b.retain(|&other| other != session);
        self.held.remove(&session);
        let mut sent = self.update_each(at_b);
        let message = Message::Leave;
        sent.push(Sent { session, message });
        Ok(sent)
    }

    // Lines 10, 40, 51 and 61.
    fn update_each(&mut self, sessions: Vec<usize>) -> Vec<Sent> {
        for &session in &sessions {
            self.entry(session).state = State::WaitingProbe;
        }
        let update = |session| Sent {
            session,
            message: Message::Update,
        };
        sessions.into_iter().map(update).collect()
    }
}

// Lines 42 and 43.
fn bottleneck(session: usize, entry: Entry) -> Vec<Sent> {
    let message = Message::Bottleneck;
    if entry.state == State::Idle && entry.set == Set::R {
        vec![Sent { session, message }]
    } else {
        Vec::new()
    }
}
