//! The direct calculation (01, "The direct calculation"; 001, Figure 1): every session's max-min
//! fair rate, and the place that binds it (02, §2; 001, Definition 1). A session's own limit D is
//! one more link that only this session crosses.

use std::collections::{BTreeMap, BTreeSet};

use crate::fraction::Fraction;
use crate::records::{
    own_limit, read, within_access, Kind, Record, Refusal, Refused, INPUT_BYTES, OWN, SESSIONS,
};

/// What an accepted input declared, one bit for each number.
#[derive(Clone, Copy, Debug, PartialEq, Eq)]
pub struct Declared {
    /// Bit k: link k is declared.
    pub links: u64,
    /// Bit k: session k is declared, and place k of each answer slice is written.
    pub sessions: u32,
}

// The links and sessions that the records declare.
#[derive(Default)]
struct Network {
    capacities: BTreeMap<usize, u64>,
    sessions: BTreeMap<usize, Session>,
}

struct Session {
    own_limit: u64,
    path: Vec<usize>,
}

// The links of Figure 1's E: those declared, and each session's own.
#[derive(Clone, Copy, PartialEq, Eq, PartialOrd, Ord)]
enum Line {
    Link(usize),
    Own(usize),
}

// What Figure 1 keeps of one line: C_e, R_e and F_e.
struct Crossed {
    capacity: u64,
    r: BTreeSet<usize>,
    f: BTreeSet<usize>,
}

type Rates = BTreeMap<usize, Fraction>;

/// Calculates the rates of the sessions that `input` declares. Writes numerator, denominator and
/// binding place (64: own, else the link; 02, §2) of each declared session at its number, and no
/// other place; a refusal writes nothing. The order of the tests is 15, 1, then each record's 2 to
/// 7, 16 and 8 (02, §1).
pub fn calculate(
    input: &[u8],
    nums: &mut [u64],
    dens: &mut [u64],
    places: &mut [u64],
) -> Result<Declared, Refused> {
    let shortest = nums.len().min(dens.len()).min(places.len());
    if shortest < SESSIONS {
        return Err(Refusal::SliceTooShort.at(0));
    }
    if input.len() > INPUT_BYTES {
        return Err(Refusal::InputTooLong.at(0));
    }
    let network = read_network(input)?;
    let rates = max_min_fair(&network);
    for (&number, session) in &network.sessions {
        let rate = rates[&number];
        nums[number] = part(rate.num());
        dens[number] = part(rate.den());
        places[number] = binding_place(&network, &rates, session, rate);
    }
    Ok(declared(&network))
}

// All records in turn, up to the first that is refused.
fn read_network(input: &[u8]) -> Result<Network, Refused> {
    let mut network = Network::default();
    let mut place = 0;
    while place < input.len() {
        let (record, next) =
            read(input, place, &Kind::CALCULATION).map_err(|refusal| refusal.at(place))?;
        declare(&mut network, record).map_err(|refusal| refusal.at(place))?;
        place = next;
    }
    Ok(network)
}

// Refusals 7, 16 of a session (02, §1: directly after 7), and 8.
fn declare(network: &mut Network, record: Record) -> Result<(), Refusal> {
    match record {
        Record::Link { link, capacity } => {
            if network.capacities.contains_key(&link) {
                return Err(Refusal::AlreadyThere);
            }
            network.capacities.insert(link, capacity);
        }
        Record::Session {
            session,
            access,
            maximum,
            path,
        } => {
            if network.sessions.contains_key(&session) {
                return Err(Refusal::AlreadyThere);
            }
            within_access(access, maximum)?;
            if !path
                .iter()
                .all(|link| network.capacities.contains_key(link))
            {
                return Err(Refusal::LinkUndeclared);
            }
            let own_limit = own_limit(access, maximum);
            network
                .sessions
                .insert(session, Session { own_limit, path });
        }
        // The reader takes no other kind for this call.
        Record::Leave { .. } | Record::Change { .. } | Record::Deliver { .. } => {
            return Err(Refusal::KindNotTaken)
        }
    }
    Ok(())
}

// 001, Figure 1.
fn max_min_fair(network: &Network) -> Rates {
    let mut rates = Rates::new();
    // Lines 1 and 2: L holds the lines with somebody in R.
    let mut lines = crossed_lines(network);
    // Line 3.
    while !lines.is_empty() {
        // Line 4.
        let shares: BTreeMap<Line, Fraction> = lines
            .iter()
            .map(|(&line, crossed)| (line, share(crossed, &rates)))
            .collect();
        // Line 5: the smallest share, the lines L' that have it, and the sessions X in their R.
        let smallest = *shares.values().min().expect("L is not empty");
        let chosen: BTreeSet<Line> = lines
            .keys()
            .copied()
            .filter(|line| shares[line] == smallest)
            .collect();
        let fixed: BTreeSet<usize> = chosen
            .iter()
            .flat_map(|line| lines[line].r.iter().copied())
            .collect();
        // Line 6.
        for &session in &fixed {
            rates.insert(session, smallest);
        }
        // Lines 7 and 8.
        lines.retain(|line, _| !chosen.contains(line));
        for crossed in lines.values_mut() {
            let moved: BTreeSet<usize> = crossed.r.intersection(&fixed).copied().collect();
            crossed.r.retain(|session| !moved.contains(session));
            crossed.f.extend(moved);
        }
        lines.retain(|_, crossed| !crossed.r.is_empty());
    }
    rates
}

// Figure 1, lines 1 and 2, with D as one more line (01, "The direct calculation").
fn crossed_lines(network: &Network) -> BTreeMap<Line, Crossed> {
    let mut lines = BTreeMap::new();
    for (&number, session) in &network.sessions {
        let own = Line::Own(number);
        cross(&mut lines, own, session.own_limit, number);
        for &link in &session.path {
            cross(
                &mut lines,
                Line::Link(link),
                network.capacities[&link],
                number,
            );
        }
    }
    lines
}

fn cross(lines: &mut BTreeMap<Line, Crossed>, line: Line, capacity: u64, session: usize) {
    let crossed = lines.entry(line).or_insert_with(|| Crossed {
        capacity,
        r: BTreeSet::new(),
        f: BTreeSet::new(),
    });
    crossed.r.insert(session);
}

// Figure 1, line 4.
fn share(crossed: &Crossed, rates: &Rates) -> Fraction {
    let taken = sum(crossed.f.iter().map(|session| rates[session]));
    Fraction::share(crossed.capacity, taken, crossed.r.len())
        .expect("a line of L has somebody in R, and rates fixed there fit its capacity")
}

fn sum(rates: impl Iterator<Item = Fraction>) -> Fraction {
    rates.fold(Fraction::ZERO, Fraction::plus)
}

// 02, §2: "own" if the rate equals D, else the first link of the path, in path order, that is a
// bottleneck of the session.
fn binding_place(network: &Network, rates: &Rates, session: &Session, rate: Fraction) -> u64 {
    if rate == Fraction::whole(session.own_limit) {
        return OWN;
    }
    let mut path = session.path.iter().copied();
    let first = path.find(|&link| is_bottleneck(network, rates, link, rate));
    first.expect("a session below D has a bottleneck on its path") as u64
}

// 001, Definition 1, of a link and the rate of a session on it: the link's capacity is fully used,
// and no session on the link has more.
fn is_bottleneck(network: &Network, rates: &Rates, link: usize, rate: Fraction) -> bool {
    let rates_there: Vec<Fraction> = network
        .sessions
        .iter()
        .filter(|(_, other)| other.path.contains(&link))
        .map(|(number, _)| rates[number])
        .collect();
    let used = sum(rates_there.iter().copied());
    let fully_used = used == Fraction::whole(network.capacities[&link]);
    let nobody_has_more = rates_there.iter().all(|&other| other <= rate);
    fully_used && nobody_has_more
}

fn declared(network: &Network) -> Declared {
    let links = network.capacities.keys();
    let sessions = network.sessions.keys();
    Declared {
        links: links.fold(0, |word, &link| word | 1 << link),
        sessions: sessions.fold(0, |word, &session| word | 1 << session),
    }
}

// 01, "Fractions": a rate's denominator is at most 118,098, so its numerator fits as well.
fn part(part: u128) -> u64 {
    u64::try_from(part).expect("a rate of at most 1,000,000 over at most 118,098")
}
