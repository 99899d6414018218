//! Inputs for the calculation: networks of all sizes, and what is left of them after damage.

use crate::calculation::{compare, compare_plainly};
use crate::difference::Difference;
use crate::random::Random;
use crate::tally::Tally;
use second::making::{link, session};

/// The largest input that is read.
pub const INPUT_BYTES: usize = 32_768;

/// Records of a random network that both sides accept: links and sessions in random order, each
/// link declared before the first path over it.
pub fn network(random: &mut Random) -> Vec<u8> {
    let (most_links, most_sessions) = random.one_of(&[(4, 6), (4, 6), (3, 32), (16, 16), (64, 32)]);
    let (links, sessions) = (
        random.between(1, most_links),
        random.between(1, most_sessions),
    );
    sized_network(random, links, sessions, None)
}

/// The same with this many links and sessions, and paths of this many links, if given.
pub fn sized_network(
    random: &mut Random,
    links: usize,
    sessions: usize,
    path: Option<usize>,
) -> Vec<u8> {
    let all: Vec<u8> = (0..64).collect();
    let links = random.some_of(&all, links);
    let sessions = random.some_of(&all[..32], sessions);
    let largest = random.one_of(&[3, 10, 100, 30_000, 1_000_000]);
    let mut rate = |random: &mut Random| random.between(1, largest) as u32;
    // Some sessions come before the last links are declared.
    let early = match path {
        Some(_) => links.len(),
        None => random.between(1, links.len()),
    };
    let mut bytes = Vec::new();
    for &number in &links[..early] {
        bytes.extend(link(number, rate(random)));
    }
    let late = random.under(sessions.len() + 1);
    for (turn, &number) in sessions.iter().enumerate() {
        if turn == late {
            declare_rest(&mut bytes, &links[early..], random, &mut rate);
        }
        let known = if turn < late { &links[..early] } else { &links };
        let path = match path {
            Some(length) => random.some_of(known, length),
            None => random.path(known),
        };
        let access = rate(random);
        // Not above the access rate (02, §1).
        let maximum = match random.chance(60) {
            true => 0,
            false => rate(random).min(access),
        };
        bytes.extend(session(number, access, maximum, &path));
    }
    if late == sessions.len() {
        declare_rest(&mut bytes, &links[early..], random, &mut rate);
    }
    bytes
}

fn declare_rest(
    bytes: &mut Vec<u8>,
    links: &[u8],
    random: &mut Random,
    rate: &mut impl FnMut(&mut Random) -> u32,
) {
    for &number in links {
        bytes.extend(link(number, rate(random)));
    }
}

/// Overwrites up to four bytes, or puts some in or takes some out.
pub fn damage(bytes: &mut Vec<u8>, random: &mut Random) {
    for _ in 0..random.between(1, 4) {
        if bytes.is_empty() {
            return;
        }
        let place = random.under(bytes.len());
        match random.under(8) {
            0 => bytes.insert(place, random.odd_byte()),
            1 => drop(bytes.remove(place)),
            2 => bytes[place] ^= 1 << random.under(8),
            _ => bytes[place] = random.odd_byte(),
        }
    }
}

/// A network that is accepted.
pub fn valid(random: &mut Random, tally: &mut Tally) -> Result<(), Difference> {
    let records = network(random);
    compare_plainly(&records, random, tally)
}

/// A network with damaged bytes.
pub fn damaged(random: &mut Random, tally: &mut Tally) -> Result<(), Difference> {
    let mut records = network(random);
    damage(&mut records, random);
    compare_plainly(&records, random, tally)
}

/// A network that ends early, in a record or between two; also the empty input.
pub fn cut(random: &mut Random, tally: &mut Tally) -> Result<(), Difference> {
    let mut records = network(random);
    records.truncate(random.under(records.len() + 1));
    compare_plainly(&records, random, tally)
}

/// Inputs around the largest size: a network followed by records that repeat it, or by any bytes.
pub fn too_long(random: &mut Random, tally: &mut Tally) -> Result<(), Difference> {
    let length = match random.under(3) {
        0 => INPUT_BYTES,
        1 => INPUT_BYTES + 1,
        _ => random.between(INPUT_BYTES - 100, INPUT_BYTES + 20_000),
    };
    let network = network(random);
    let mut records = match random.chance(50) {
        true => network.repeat(length / network.len() + 1),
        false => {
            let filler = random.odd_byte();
            [network, vec![filler; length]].concat()
        }
    };
    records.truncate(length);
    compare_plainly(&records, random, tally)
}

/// Bytes without sense, of which many are kinds of records.
pub fn any_bytes(random: &mut Random, tally: &mut Tally) -> Result<(), Difference> {
    let length = random.under(120);
    let records: Vec<u8> = (0..length).map(|_| random.odd_byte()).collect();
    compare_plainly(&records, random, tally)
}

/// Slices of random lengths, short ones among them, for accepted and for damaged records.
pub fn lent(random: &mut Random, tally: &mut Tally) -> Result<(), Difference> {
    let mut records = network(random);
    if random.chance(30) {
        damage(&mut records, random);
    }
    let lengths = [(); 3].map(|()| match random.chance(80) {
        true => random.between(32, 40),
        false => random.under(41),
    });
    compare(&records, lengths, random, tally)
}
