//! The inputs that the program `bench` times: networks for the calculation, and for the machine a table
//! at rest with the records that keep it busy.

use second::calculation::calculate;
use second::machine::{run, Table as Other};

use crate::networks::sized_network;
use crate::random::Random;
use crate::runs::record_ends;
use second::making::{change, deliver, held_access, link, session};

/// The specification's example P6: 2 links and 4 sessions.
pub const P6: &[u8] = include_bytes!("../../examples/p6.bin");

/// A table at rest, as the records that lead to it from the empty one, and the records to time.
pub struct Busy {
    /// In several calls, since no call takes more than 32,768 bytes.
    pub before: Vec<Vec<u8>>,
    /// Changes of maxima, each followed by deliveries until nothing is in flight.
    pub records: Vec<u8>,
    /// How many of the records are deliveries.
    pub deliveries: usize,
}

/// A network of this many links and sessions, with paths of this many links.
pub fn network(links: usize, sessions: usize, path: usize) -> Vec<u8> {
    sized_network(&mut Random::new(3), links, sessions, Some(path))
}

/// One of the networks by which growth is measured, another one for each seed: rates of all sizes, and
/// paths of 8 links, or of all where there are fewer. The network with one session less has the same
/// links and the same other sessions.
pub fn grown(seed: u64, links: usize, sessions: usize) -> Vec<u8> {
    let mut random = Random::new(seed);
    let numbers: Vec<u8> = (0..links as u8).collect();
    let rate = |random: &mut Random| random.between(1, 1_000_000) as u32;
    let mut bytes = Vec::new();
    for &number in &numbers {
        bytes.extend(link(number, rate(&mut random)));
    }
    for number in 0..sessions as u8 {
        let path = random.some_of(&numbers, links.min(8));
        bytes.extend(session(number, rate(&mut random), 0, &path));
    }
    bytes
}

/// The machine on the network of these records, busy for a whole input.
pub fn busy(network: Vec<u8>) -> Busy {
    let mut table = Other::empty();
    let mut before = vec![network];
    let mut refused = run(&mut table, &before[0]).refused;
    while !table.packets.is_empty() && refused.is_none() {
        let record = deliver(0);
        refused = run(&mut table, &record).refused;
        before.push(record);
    }
    assert_eq!(refused, None, "the sessions join and come to rest");
    let active: Vec<u8> = (0..32)
        .filter(|&session| table.sources[usize::from(session)].is_active())
        .collect();
    let mut random = Random::new(4);
    let mut records = Vec::new();
    let mut deliveries = 0;
    while records.len() < 30_000 {
        let record = match table.packets.is_empty() {
            true => {
                let number = random.one_of(&active);
                // Not above the access rate (02, §1).
                let maximum = random.one_of(&[0, 1, 2, 1_000]);
                change(number, maximum.min(held_access(&table, number)))
            }
            false => {
                deliveries += 1;
                deliver(0)
            }
        };
        let refused = run(&mut table, &record).refused;
        assert_eq!(refused, None, "a change and a delivery in turn are taken");
        records.extend(record);
    }
    Busy {
        before,
        records,
        deliveries,
    }
}

/// The same network with every capacity, access rate and maximum times the common denominator of its
/// rates: each session is bound where it was, and every rate is a whole number.
pub fn whole_rates(network: &[u8]) -> Vec<u8> {
    let [mut nums, mut dens, mut places] = [[1; 32]; 3];
    let answer = calculate(network, &mut nums, &mut dens, &mut places);
    assert!(answer.is_ok(), "the network is accepted");
    let common = dens
        .iter()
        .fold(1, |common, den| common / divisor(common, *den) * den);
    let mut bytes = network.to_vec();
    let mut from = 0;
    for end in record_ends(network) {
        let numbers: &[usize] = if network[from] == 1 { &[2] } else { &[2, 6] };
        for place in numbers {
            let number = &mut bytes[from + place..][..4];
            let rate = u32::from_be_bytes(number.try_into().expect("four bytes"));
            number.copy_from_slice(&(rate * common as u32).to_be_bytes());
        }
        from = end;
    }
    bytes
}

// The greatest common divisor.
fn divisor(one: u64, other: u64) -> u64 {
    match other {
        0 => one,
        _ => divisor(other, one % other),
    }
}

#[cfg(test)]
mod tests {
    use super::{grown, network, whole_rates};

    #[test]
    fn whole_rates_have_the_same_places() {
        let records = network(64, 32, 8);
        let rates = umbraconga::calculate(&records).expect("it is accepted");
        let whole = umbraconga::calculate(&whole_rates(&records)).expect("it is accepted");
        assert_eq!(rates.iter().count(), whole.iter().count());
        for (one, other) in rates.iter().zip(whole.iter()) {
            assert_eq!((one.session, one.place), (other.session, other.place));
            assert_eq!(other.den, 1);
        }
        assert!(rates.iter().any(|share| share.den > 1));
    }

    #[test]
    fn fewer_sessions_are_the_first_ones() {
        let all = grown(3, 64, 32);
        assert!(all.starts_with(&grown(3, 64, 7)));
    }
}
