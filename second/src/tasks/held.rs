//! What a link holds, and what the rules of Figure 2 read from it: the sum of F, B, and the members
//! of R and F. B is above every rate where R is empty (01, "Added here").

use std::collections::BTreeMap;

use super::{Set, State};
use crate::fraction::Fraction;
use crate::records::{Refusal, DENOMINATOR_LIMIT};

/// What a link keeps of one session (001, section III.C).
#[derive(Clone, Copy, Debug, PartialEq, Eq)]
pub struct Entry {
    /// R_e or F_e.
    pub set: Set,
    /// mu of the session at this link.
    pub state: State,
    /// lambda of the session at this link.
    pub rate: Fraction,
}

/// One link: its number, its capacity C, and the sessions that it holds by rising number.
#[derive(Clone, Debug, PartialEq, Eq)]
pub struct Link {
    /// 0 to 63.
    pub number: usize,
    /// C.
    pub capacity: u64,
    /// The entries of R and F.
    pub held: BTreeMap<usize, Entry>,
}

/// The bottleneck rate B. The cases stand in rising order, so that the derived comparison puts
/// every rate below an empty R's B (01, "Added here").
#[derive(Clone, Copy, Debug, PartialEq, Eq, PartialOrd, Ord)]
pub enum Bound {
    /// (C - the rates in F) / (size of R).
    Rate(Fraction),
    /// R is empty.
    AboveEveryRate,
}

impl Link {
    /// The sum of the rates in F by rising session number, or refusal 12 where a partial sum in
    /// lowest terms is too fine.
    pub fn sum_of_f(&self) -> Result<Fraction, Refusal> {
        let mut sum = Fraction::ZERO;
        for entry in self.held.values().filter(|entry| entry.set == Set::F) {
            sum = within_limit(sum.plus(entry.rate))?;
        }
        Ok(sum)
    }

    /// B (001, section III.C), or refusal 12 where it or a partial sum is too fine. Assumes that F
    /// sums to at most C, which 14 demands of a table handed in and line 48 of Figure 2 keeps.
    pub fn bottleneck_rate(&self) -> Result<Bound, Refusal> {
        let taken = self.sum_of_f()?;
        let members = self.restricted().count();
        if members == 0 {
            return Ok(Bound::AboveEveryRate);
        }
        let rate = Fraction::share(self.capacity, taken, members).expect("F sums to at most C");
        Ok(Bound::Rate(within_limit(rate)?))
    }

    // Figure 2, lines 25 and 46.
    pub(super) fn all_restricted_idle_at(&self, b: Bound) -> bool {
        self.restricted()
            .all(|(_, entry)| Bound::Rate(entry.rate) == b && entry.state == State::Idle)
    }

    // The idle members of R whose rate is chosen, by rising session number.
    pub(super) fn idle_restricted(&self, chosen: impl Fn(Fraction) -> bool) -> Vec<usize> {
        self.restricted()
            .filter(|(_, entry)| entry.state == State::Idle && chosen(entry.rate))
            .map(|(session, _)| session)
            .collect()
    }

    pub(super) fn restricted(&self) -> impl Iterator<Item = (usize, &Entry)> {
        self.held
            .iter()
            .filter(|(_, entry)| entry.set == Set::R)
            .map(|(&session, entry)| (session, entry))
    }

    // Figure 2, line 6.
    pub(super) fn highest_in_f(&self) -> Option<Fraction> {
        self.held
            .values()
            .filter(|entry| entry.set == Set::F)
            .map(|entry| entry.rate)
            .max()
    }

    pub(super) fn entry(&mut self, session: usize) -> &mut Entry {
        self.held
            .get_mut(&session)
            .expect("the rules speak of sessions that the link holds")
    }
}

// Refusal 12.
fn within_limit(value: Fraction) -> Result<Fraction, Refusal> {
    if value.den() > u128::from(DENOMINATOR_LIMIT) {
        Err(Refusal::TooFine)
    } else {
        Ok(value)
    }
}
