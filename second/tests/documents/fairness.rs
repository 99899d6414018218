//! The calculation against the direct test of max-min fairness (001, Definition 1): the rates are
//! feasible, and each session has D or crosses a fully used link on which nobody has more.

use crate::common::{calculated, link, session, Random};

/// A network as the test knows it, apart from its records.
pub struct Network {
    pub capacities: Vec<(u8, u32)>,
    pub sessions: Vec<Session>,
}

pub struct Session {
    pub number: u8,
    pub access: u32,
    pub maximum: u32,
    pub path: Vec<u8>,
}

impl Session {
    pub fn own_limit(&self) -> u128 {
        match self.maximum {
            0 => u128::from(self.access),
            maximum => u128::from(self.access.min(maximum)),
        }
    }
}

impl Network {
    /// The records, links first.
    pub fn records(&self) -> Vec<u8> {
        let links = self.capacities.iter();
        let mut bytes: Vec<u8> = links
            .flat_map(|&(number, capacity)| link(number, capacity))
            .collect();
        for one in &self.sessions {
            bytes.extend(session(one.number, one.access, one.maximum, &one.path));
        }
        bytes
    }
}

/// All rates over one denominator, so that sums and comparisons are those of whole numbers.
pub struct Scaled {
    pub unit: u128,
    pub rates: Vec<u128>,
}

pub fn scaled(network: &Network, nums: &[u64], dens: &[u64]) -> Scaled {
    let numbers = || network.sessions.iter().map(|one| usize::from(one.number));
    let unit = numbers().fold(1, |unit, number| {
        least_common_multiple(unit, u128::from(dens[number]))
    });
    let rates = numbers()
        .map(|number| u128::from(nums[number]) * (unit / u128::from(dens[number])))
        .collect();
    Scaled { unit, rates }
}

fn greatest_common_divisor(a: u128, b: u128) -> u128 {
    let (mut divisor, mut rest) = (a, b);
    while rest != 0 {
        (divisor, rest) = (rest, divisor % rest);
    }
    divisor
}

fn least_common_multiple(a: u128, b: u128) -> u128 {
    a / greatest_common_divisor(a, b) * b
}

/// The rates of the sessions on a link.
pub fn rates_on<'a>(
    network: &'a Network,
    scaled: &'a Scaled,
    link: u8,
) -> impl Iterator<Item = u128> + 'a {
    let sessions = network.sessions.iter().zip(&scaled.rates);
    sessions
        .filter(move |(one, _)| one.path.contains(&link))
        .map(|(_, &rate)| rate)
}

/// Whether the sessions on a link use all of its capacity.
pub fn is_fully_used(network: &Network, scaled: &Scaled, link: u8) -> bool {
    let declared = network.capacities.iter();
    let (_, capacity) = declared
        .copied()
        .find(|&(number, _)| number == link)
        .unwrap();
    rates_on(network, scaled, link).sum::<u128>() == u128::from(capacity) * scaled.unit
}

/// Whether no session on a link has more than this rate.
pub fn nobody_has_more(network: &Network, scaled: &Scaled, link: u8, rate: u128) -> bool {
    rates_on(network, scaled, link).all(|other| other <= rate)
}

fn check(network: &Network) {
    let (declared, [nums, dens, _]) =
        calculated(&network.records()).expect("the records are sound");
    assert_eq!(
        declared.sessions.count_ones() as usize,
        network.sessions.len()
    );
    let scaled = scaled(network, &nums, &dens);
    for &(link, capacity) in &network.capacities {
        let used: u128 = rates_on(network, &scaled, link).sum();
        let capacity = u128::from(capacity) * scaled.unit;
        assert!(used <= capacity, "link {link} carries more than it can");
    }
    for (one, &rate) in network.sessions.iter().zip(&scaled.rates) {
        let number = usize::from(one.number);
        let own_limit = one.own_limit() * scaled.unit;
        assert!(rate <= own_limit, "session {number} exceeds its D");
        assert!(dens[number] <= 118_098);
        let common = greatest_common_divisor(u128::from(nums[number]), u128::from(dens[number]));
        assert_eq!(common, 1, "session {number} is not in lowest terms");
        let restricted = one.path.iter().any(|&on| {
            is_fully_used(network, &scaled, on) && nobody_has_more(network, &scaled, on, rate)
        });
        assert!(rate == own_limit || restricted, "session {number}");
    }
}

// Limits that make ties and fine shares likely, and now and then large ones.
fn random_limit(random: &mut Random) -> u32 {
    match random.under(10) {
        0 => 1_000_000,
        1..=2 => 1 + random.under(1_000_000) as u32,
        3..=6 => 1 + random.under(12) as u32,
        _ => 1 + random.under(100) as u32,
    }
}

pub fn random_network(random: &mut Random, most_links: usize, most_sessions: usize) -> Network {
    let all: Vec<u8> = (0..64).collect();
    let mut numbers = all.clone();
    let links: Vec<u8> = (0..1 + random.under(most_links))
        .map(|_| numbers.swap_remove(random.under(numbers.len())))
        .collect();
    let capacities = links.iter().map(|&on| (on, random_limit(random))).collect();
    let mut numbers = all[..32].to_vec();
    let sessions = (0..random.under(most_sessions + 1))
        .map(|_| {
            let number = numbers.swap_remove(random.under(numbers.len()));
            let access = random_limit(random);
            let maximum = match random.chance(50) {
                true => 0,
                // Not above the access rate (02, §1).
                false => random_limit(random).min(access),
            };
            Session {
                number,
                access,
                maximum,
                path: random.path(&links),
            }
        })
        .collect();
    Network {
        capacities,
        sessions,
    }
}

#[test]
fn small_networks_are_fair() {
    let mut random = Random::new(1);
    for _ in 0..20_000 {
        check(&random_network(&mut random, 5, 6));
    }
}

#[test]
fn large_networks_are_fair() {
    let mut random = Random::new(2);
    for _ in 0..2_000 {
        check(&random_network(&mut random, 64, 32));
        check(&random_network(&mut random, 12, 32));
    }
}

fn open_session(number: u8, path: &[u8]) -> Session {
    Session {
        number,
        access: 1_000_000,
        maximum: 0,
        path: path.to_vec(),
    }
}

// Two sessions on link 0 of 1 get 1/2. Link k of 9(k + 1) + 1 has three new sessions and one from
// the link before, so x(k) = (C - x(k-1)) / 3: a denominator of 2 * 3^k, since 3 does not divide
// 2 * C - 1 and so no later numerator, and every numerator is odd. Ten such links use all 32
// sessions and reach 118,098, the bound of document 01.
#[test]
fn the_finest_rates() {
    let mut sessions = vec![open_session(0, &[0, 1]), open_session(1, &[0])];
    for number in 1..=10 {
        let next = sessions.len() as u8;
        let on = [number, number + 1];
        let path = if number < 10 { &on[..] } else { &on[..1] };
        sessions.push(open_session(next, path));
        sessions.push(open_session(next + 1, &[number]));
        sessions.push(open_session(next + 2, &[number]));
    }
    let capacity = |number: u8| match number {
        0 => 1,
        _ => 9 * (u32::from(number) + 1) + 1,
    };
    let capacities = (0..=10).map(|number| (number, capacity(number))).collect();
    let network = Network {
        capacities,
        sessions,
    };
    assert_eq!(network.sessions.len(), 32);
    check(&network);
    let (_, [nums, dens, places]) = calculated(&network.records()).unwrap();
    assert_eq!((nums[0], dens[0]), (1, 2));
    assert_eq!(places[..2], [0, 0]);
    // (19 - 1/2) / 3 = 37/6.
    assert_eq!((nums[2], dens[2]), (37, 6));
    for number in 1..=10 {
        let place = 3 * number - 1;
        let fineness = 2 * 3_u64.pow(number as u32);
        assert_eq!(dens[place..place + 3], [fineness; 3]);
        assert_eq!(places[place..place + 3], [number as u64; 3]);
    }
    assert_eq!(dens[31], 118_098);
}

// 01, "Slips to guard against": a round's smallest share goes only to sessions at links that have
// it. Link 0 of 4 with two sessions has 2, link 1 of 30 with one of them and another has 28 left.
#[test]
fn other_links_wait_for_their_round() {
    let network = Network {
        capacities: vec![(0, 4), (1, 30)],
        sessions: vec![
            open_session(0, &[0]),
            open_session(1, &[0, 1]),
            open_session(2, &[1]),
        ],
    };
    check(&network);
    let (_, [nums, dens, places]) = calculated(&network.records()).unwrap();
    assert_eq!(nums[..3], [2, 2, 28]);
    assert_eq!(dens[..3], [1, 1, 1]);
    assert_eq!(places[..3], [0, 0, 1]);
}
