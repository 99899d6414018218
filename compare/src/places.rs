//! What tells the binding place of 02, §2, from a place by another rule, counted in the sessions of an
//! accepted calculation: by its records, and by the rates and places of the second implementation.

use std::collections::BTreeMap;

use second::fraction::Fraction;
use second::records::{read, Kind, Record, OWN};

/// The cases, each as it is printed. A bottleneck is meant as in 001, Definition 1.
pub const CASES: [&str; 5] = [
    "binding place past a fully used link",
    "second bottleneck further on",
    "own where a link is a bottleneck too",
    "binding place past a link with capacity left on which nobody has more",
    "another session with the same rate at the binding place",
];

/// How many sessions meet each of the cases.
pub type Met = [u64; CASES.len()];

// A link as Definition 1 looks at it: what its sessions use, and their rates.
struct Link {
    capacity: Fraction,
    used: Fraction,
    rates: Vec<Fraction>,
}

struct Session {
    path: Vec<usize>,
    rate: Fraction,
    place: u64,
}

impl Link {
    fn new(capacity: u64) -> Link {
        Link {
            capacity: Fraction::whole(capacity),
            used: Fraction::ZERO,
            rates: Vec::new(),
        }
    }

    // One more session on the link.
    fn add(&mut self, rate: Fraction) {
        self.used = self.used.plus(rate);
        self.rates.push(rate);
    }

    fn is_fully_used(&self) -> bool {
        self.used == self.capacity
    }

    fn nobody_has_more(&self, than: Fraction) -> bool {
        self.rates.iter().all(|&rate| rate <= than)
    }

    // 001, Definition 1.
    fn is_bottleneck(&self, of: &Session) -> bool {
        self.is_fully_used() && self.nobody_has_more(of.rate)
    }
}

/// The cases that the sessions of these records meet, which were accepted; the slices hold numerators,
/// denominators and binding places.
pub fn met(records: &[u8], slices: &[Vec<u64>; 3]) -> Met {
    let (links, sessions) = declared(records, slices);
    let mut met = Met::default();
    for session in &sessions {
        let cases = cases_of(session, &links);
        for (count, case) in met.iter_mut().zip(cases) {
            *count += u64::from(case);
        }
    }
    met
}

// Which of the cases a session meets.
fn cases_of(session: &Session, links: &BTreeMap<usize, Link>) -> [bool; CASES.len()] {
    let path: Vec<&Link> = session.path.iter().map(|link| &links[link]).collect();
    let is_bottleneck = |link: &&Link| link.is_bottleneck(session);
    if session.place == OWN {
        return [false, false, path.iter().any(is_bottleneck), false, false];
    }
    let mut numbers = session.path.iter();
    let at = numbers.position(|&link| link as u64 == session.place);
    let at = at.expect("a binding place other than own is on the path");
    let (before, after) = (&path[..at], &path[at + 1..]);
    let has_most = |link: &&Link| !link.is_fully_used() && link.nobody_has_more(session.rate);
    let same_rate = path[at].rates.iter().filter(|&&rate| rate == session.rate);
    [
        before.iter().any(|link| link.is_fully_used()),
        after.iter().any(is_bottleneck),
        false,
        before.iter().any(has_most),
        same_rate.count() > 1,
    ]
}

// The links and sessions of records that were accepted, each link declared before the paths over it.
fn declared(
    records: &[u8],
    [nums, dens, places]: &[Vec<u64>; 3],
) -> (BTreeMap<usize, Link>, Vec<Session>) {
    let mut links = BTreeMap::new();
    let mut sessions = Vec::new();
    let mut at = 0;
    while at < records.len() {
        let (record, next) = read(records, at, &Kind::CALCULATION).expect("an accepted record");
        match record {
            Record::Link { link, capacity } => {
                links.insert(link, Link::new(capacity));
            }
            Record::Session { session, path, .. } => {
                let rate = Fraction::new(nums[session].into(), dens[session].into());
                let rate = rate.expect("a rate has a denominator");
                for on in &path {
                    let link: &mut Link = links.get_mut(on).expect("a declared link");
                    link.add(rate);
                }
                let place = places[session];
                sessions.push(Session { path, rate, place });
            }
            Record::Leave { .. } | Record::Change { .. } | Record::Deliver { .. } => {
                unreachable!("the calculation takes kinds 1 and 2")
            }
        }
        at = next;
    }
    (links, sessions)
}
