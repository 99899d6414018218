//! The binding place (02, §2) on purpose: fully used links that are no bottleneck of the session (001,
//! Definition 1), two bottlenecks on one path, equal rates, and D beside a bottleneck; and random networks
//! that are made to meet them.

use crate::calculation::{by_second, compare_plainly};
use crate::difference::{same, Difference};
use crate::purpose::MOST;
use crate::random::Random;
use crate::tally::Tally;
use crate::words::SESSIONS;
use second::making::{link, session};
use second::records::{OWN, PATH_LINKS};

// A network before it is written as records, each session with its number.
struct Network {
    capacities: Vec<(u8, u32)>,
    sessions: Vec<Session>,
}

struct Session {
    number: u8,
    access: u32,
    maximum: u32,
    path: Vec<u8>,
}

impl Network {
    // Links first.
    fn records(&self) -> Vec<u8> {
        let links = self.capacities.iter();
        let mut bytes: Vec<u8> = links
            .flat_map(|&(number, capacity)| link(number, capacity))
            .collect();
        for one in &self.sessions {
            bytes.extend(session(one.number, one.access, one.maximum, &one.path));
        }
        bytes
    }
}

// A session whose access rate is the largest.
fn session_of(number: usize, maximum: u32, path: &[u8]) -> Session {
    Session {
        number: number as u8,
        access: MOST,
        maximum,
        path: path.to_vec(),
    }
}

// These links with their capacities, and sessions 0, 1 and so on with maximum, path and the binding place
// that is meant.
fn meant(capacities: &[(u8, u32)], sessions: &[(u32, &[u8], u64)]) -> (Network, Vec<u64>) {
    let numbered = sessions.iter().enumerate();
    let network = Network {
        capacities: capacities.to_vec(),
        sessions: numbered
            .map(|(number, &(maximum, path, _))| session_of(number, maximum, path))
            .collect(),
    };
    let places = sessions.iter().map(|&(_, _, place)| place).collect();
    (network, places)
}

// Fully used links on which another has more, and links on which the session has the most but of which
// some is left.
fn no_bottlenecks() -> Vec<(Network, Vec<u64>)> {
    let example = [(0, 10), (1, 4)];
    let mut all = vec![
        // The example of 02, §2, and the path the other way.
        meant(&example, &[(0, &[0, 1], 1), (0, &[0], 0)]),
        meant(&example, &[(0, &[1, 0], 1), (0, &[0], 0)]),
        // Who has more is bound by its own limit; with one less, link 0 is not fully used.
        meant(&example, &[(0, &[0, 1], 1), (6, &[0], OWN)]),
        meant(&example, &[(0, &[0, 1], 1), (5, &[0], OWN)]),
        // 4 and 2 use all of the 6 of link 0, and not of 7.
        meant(&[(0, 6), (1, 4)], &[(0, &[0, 1], 0), (2, &[0], OWN)]),
        meant(&[(0, 7), (1, 4)], &[(0, &[0, 1], 1), (2, &[0], OWN)]),
    ];
    // A third of link 0 is left by 10/3 and 10/3; then another has 11/3 there.
    let thirds = [(0, 7), (1, 10)];
    let (both, narrow) = ((0, &[0, 1][..], 1), (0, &[1][..], 1));
    all.push(meant(&thirds, &[both, both, narrow]));
    all.push(meant(&thirds, &[both, narrow, narrow, (0, &[0], 0)]));
    // Two fully used links before the bottleneck, around it, and after it.
    for path in [[0, 1, 2], [1, 2, 0], [2, 1, 0]] {
        let capacities = [(0, 30), (1, 12), (2, 3)];
        let sessions: [(u32, &[u8], u64); 3] = [(0, &path, 2), (0, &[0], 0), (0, &[1], 1)];
        all.push(meant(&capacities, &sessions));
    }
    all
}

// Two bottlenecks on one path, where all have 5, and rates that are equal though bound elsewhere.
fn ties() -> Vec<(Network, Vec<u64>)> {
    let mut all = Vec::new();
    // Link 9 is not fully used.
    let paths: [&[u8]; 4] = [&[3, 5], &[5, 3], &[9, 5, 3], &[3, 9, 5]];
    for (path, first) in paths.into_iter().zip([3, 5, 5, 3]) {
        let capacities = [(3, 10), (5, 10), (9, 10)];
        all.push(meant(
            &capacities,
            &[(0, path, first), (0, &[3], 3), (0, &[5], 5)],
        ));
    }
    let halves = [(0, 10), (1, 5)];
    all.extend([
        meant(&halves, &[(0, &[0], 0), (0, &[0, 1], 0)]),
        meant(&halves, &[(0, &[0], 0), (0, &[1, 0], 1)]),
        // P8, and its maximum one higher.
        meant(&[(0, 10)], &[(5, &[0], OWN), (0, &[0], 0)]),
        meant(&[(0, 10)], &[(6, &[0], 0), (0, &[0], 0)]),
        // At D, with a bottleneck behind a fully used link on which another has more.
        meant(&[(0, MOST), (1, 4)], &[(4, &[0, 1], OWN), (0, &[0], 0)]),
    ]);
    all
}

// The longest paths and the largest capacities.
fn at_the_limits() -> Vec<(Network, Vec<u64>)> {
    let path: Vec<u8> = (56..64).collect();
    let back: Vec<u8> = path.iter().rev().copied().collect();
    let largest: Vec<(u8, u32)> = path.iter().map(|&on| (on, MOST)).collect();
    let mut all = vec![
        // Eight bottlenecks of two sessions, and of one that has D.
        meant(&largest, &[(0, &path, 56), (0, &back, 63)]),
        meant(&largest, &[(0, &path, OWN)]),
        meant(&largest, &[(MOST, &back, OWN)]),
    ];
    // The eighth link is the bottleneck, and the seven before it are each filled by another.
    let mut last_narrow = largest;
    last_narrow[7].1 = 1;
    let mut sessions: Vec<(u32, &[u8], u64)> = vec![(0, &path, 63)];
    for on in path[..7].chunks(1) {
        sessions.push((0, on, on[0].into()));
    }
    all.push(meant(&last_narrow, &sessions));
    // 31 sessions have 1/31 of link 63 each, and session 31 the 999,999 that they leave of link 0.
    let mut sessions = [(0, &[0, 63][..], 63); SESSIONS];
    sessions[31] = (0, &[0], 0);
    all.push(meant(&[(0, MOST), (63, 1)], &sessions));
    all.push(finest());
    all
}

// Two sessions on link 0 of 1, and three more on each of links 1 to 10. One of each link crosses the next
// link first, where it has less than the others. The rates are finer from link to link; the last have the
// denominator 2 * 3^10 = 118,098.
fn finest() -> (Network, Vec<u64>) {
    let capacity = |number: u8| match number {
        0 => 1,
        _ => 9 * (u32::from(number) + 1) + 1,
    };
    let capacities: Vec<(u8, u32)> = (0..=10).map(|number| (number, capacity(number))).collect();
    let paths: Vec<[u8; 2]> = (0..=10).map(|number| [number + 1, number]).collect();
    let mut sessions = Vec::new();
    for (path, number) in paths.iter().zip(0..) {
        let (both, alone) = ((0, &path[..], number), (0, &path[1..], number));
        sessions.push(if number < 10 { both } else { alone });
        sessions.push(alone);
        if number > 0 {
            sessions.push(alone);
        }
    }
    meant(&capacities, &sessions)
}

/// Networks whose binding places are known.
pub fn on_purpose(random: &mut Random, tally: &mut Tally) -> Result<(), Difference> {
    let networks = [no_bottlenecks(), ties(), at_the_limits()];
    for (network, meant) in networks.into_iter().flatten() {
        let records = network.records();
        compare_plainly(&records, random, tally)?;
        let (_, [_, _, places]) = by_second(&records, unwritten());
        let places = &places[..meant.len()];
        same(
            "the binding places that were meant",
            &records,
            places,
            &meant,
        )?;
    }
    Ok(())
}

fn unwritten() -> [Vec<u64>; 3] {
    [(); 3].map(|()| vec![u64::MAX; SESSIONS])
}

/// A random network of narrow links, and of wide ones that others fill; some sessions then get a maximum
/// or one more link by their own rate.
pub fn networks(random: &mut Random, tally: &mut Tally) -> Result<(), Difference> {
    let mut network = narrow_and_wide(random);
    let records = network.records();
    let (answer, [nums, dens, _]) = by_second(&records, unwritten());
    same("a network that is accepted", &records, answer.is_ok(), true)?;
    for _ in 0..random.under(4) {
        let place = random.under(network.sessions.len());
        let number = usize::from(network.sessions[place].number);
        let rate = nums[number].div_ceil(dens[number]) as u32;
        just_enough(&mut network, place, rate, random);
    }
    compare_plainly(&network.records(), random, tally)
}

// On each wide link there is a session that takes what the others leave.
fn narrow_and_wide(random: &mut Random) -> Network {
    let all: Vec<u8> = (0..64).collect();
    let count = random.between(2, 10);
    let links = random.some_of(&all, count);
    let (narrow, wide) = links.split_at(random.between(1, count - 1));
    let widest = random.one_of(&[20, 60, MOST as usize]);
    let mut capacities = Vec::new();
    for &number in narrow {
        capacities.push((number, random.between(1, 12) as u32));
    }
    for &number in wide {
        capacities.push((number, random.between(13, widest) as u32));
    }
    let crossing = random.between(1, 12);
    let mut numbers = random
        .some_of(&all[..SESSIONS], wide.len() + crossing)
        .into_iter();
    let mut sessions = Vec::new();
    for (&on, number) in wide.iter().zip(numbers.by_ref()) {
        sessions.push(session_of(number.into(), 0, &[on]));
    }
    for number in numbers {
        let mut one = session_of(number.into(), 0, &random.path(&links));
        if random.chance(20) {
            one.access = random.between(1, 12) as u32;
        }
        sessions.push(one);
    }
    Network {
        capacities,
        sessions,
    }
}

// Gives a session a maximum, or one more link of its path, of just its rate or the next whole number, or
// one above. All rates stay what they are.
fn just_enough(network: &mut Network, place: usize, rate: u32, random: &mut Random) {
    let one = &mut network.sessions[place];
    let limit = (rate + random.under(2) as u32).min(MOST);
    if random.chance(50) {
        // Not above the access rate (02, §1).
        one.maximum = limit.min(one.access);
        return;
    }
    if one.path.len() == PATH_LINKS {
        return;
    }
    let capacities = &mut network.capacities;
    let is_declared = |on: u8| capacities.iter().any(|&(number, _)| number == on);
    let free: Vec<u8> = (0..64).filter(|&on| !is_declared(on)).collect();
    let number = random.one_of(&free);
    capacities.push((number, limit));
    one.path.insert(random.under(one.path.len() + 1), number);
}
