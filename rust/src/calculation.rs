//! The direct calculation: the max-min fair rate of every session that records declare, and the
//! place that binds it.

use std::fmt;

use crate::{raw, Refused, OWN, SESSIONS};

/// What accepted records declare, one bit for each number.
#[derive(Clone, Copy, Debug, PartialEq, Eq)]
pub struct Declared {
    /// Bit k: link k is declared.
    pub links: u64,
    /// Bit k: session k is declared.
    pub sessions: u32,
}

/// What keeps a session from a higher rate.
#[derive(Clone, Copy, Debug, PartialEq, Eq)]
pub enum Place {
    /// Its own access line or its maximum. This comes first, also where a link is a bottleneck too.
    Own,
    /// The first link of its path that is a bottleneck of it: fully used, and no session on it has
    /// more.
    Link(u8),
}

/// One session's part of the answer: a rate of `num / den` kbit/s in lowest terms.
#[derive(Clone, Copy, Debug, PartialEq, Eq)]
pub struct Share {
    /// 0 to 31.
    pub session: usize,
    /// The rate's numerator.
    pub num: u64,
    /// The rate's denominator, at least 1.
    pub den: u64,
    /// What binds the session.
    pub place: Place,
}

/// The rates of accepted records.
#[derive(Clone, Debug, PartialEq, Eq)]
pub struct Rates {
    declared: Declared,
    nums: [u64; SESSIONS],
    dens: [u64; SESSIONS],
    places: [u64; SESSIONS],
}

/// Calculates the rates of the sessions that the records declare.
pub fn calculate(records: &[u8]) -> Result<Rates, Refused> {
    let [mut nums, mut dens, mut places] = [[0; SESSIONS]; 3];
    let declared = calculate_into(records, &mut nums, &mut dens, &mut places)?;
    Ok(Rates {
        declared,
        nums,
        dens,
        places,
    })
}

/// Calculates on lent slices. Of each declared session, the place with its number gets the rate's
/// numerator, its denominator, and the binding place (a link's number, or [`OWN`]); all
/// other places stay as they were, and so do all where the call is refused. A slice with fewer than
/// 32 places is refused 15.
pub fn calculate_into(
    records: &[u8],
    nums: &mut [u64],
    dens: &mut [u64],
    places: &mut [u64],
) -> Result<Declared, Refused> {
    let [number, place, links, sessions] = raw::calculate(records, nums, dens, places);
    match Refused::of(number, place) {
        Some(refused) => Err(refused),
        // The word of sessions has 32 bits.
        None => Ok(Declared {
            links,
            sessions: sessions as u32,
        }),
    }
}

impl Rates {
    /// Which links and sessions the records declare.
    pub fn declared(&self) -> Declared {
        self.declared
    }

    /// The share of a session, or nothing where the records do not declare it.
    pub fn get(&self, session: usize) -> Option<Share> {
        let declared = session < SESSIONS && self.declared.sessions >> session & 1 == 1;
        declared.then(|| Share {
            session,
            num: self.nums[session],
            den: self.dens[session],
            place: match self.places[session] {
                OWN => Place::Own,
                // A link's number is at most 63.
                link => Place::Link(link as u8),
            },
        })
    }

    /// The shares of all declared sessions, by rising number.
    pub fn iter(&self) -> impl Iterator<Item = Share> + '_ {
        (0..SESSIONS).filter_map(|session| self.get(session))
    }
}

/// `own`, or `link` and its number.
impl fmt::Display for Place {
    fn fmt(&self, f: &mut fmt::Formatter<'_>) -> fmt::Result {
        match self {
            Place::Own => f.write_str("own"),
            Place::Link(link) => write!(f, "link {link}"),
        }
    }
}

/// Session, rate and binding place.
impl fmt::Display for Share {
    fn fmt(&self, f: &mut fmt::Formatter<'_>) -> fmt::Result {
        let Share {
            session,
            num,
            den,
            place,
        } = self;
        write!(f, "{session} {num}/{den} {place}")
    }
}

/// The lines of the program `shares`, the last one without its end.
impl fmt::Display for Rates {
    fn fmt(&self, f: &mut fmt::Formatter<'_>) -> fmt::Result {
        let Declared { links, sessions } = self.declared;
        let (links, sessions) = (links.count_ones(), sessions.count_ones());
        write!(f, "links {links} sessions {sessions}")?;
        self.iter().try_for_each(|share| write!(f, "\n{share}"))
    }
}
