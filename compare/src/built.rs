//! Handed tables that no run has reached: sessions in any state at a few links, rates up to the finest,
//! and any packets under way. They meet the branches of Figures 2 to 4 that runs from the empty table
//! rarely take, refusal 12 and refusal 13.

use crate::difference::Difference;
use crate::pair::Pair;
use crate::random::Random;
use crate::tally::Tally;
use crate::words::{entry_at, link_at, packet_at, source_at, zeros, Words, COUNT};
use second::making::{change, deliver, held_access, is_in_turn, leave, link, session};

// What a table is built over.
struct Plan {
    links: Vec<u8>,
    capacity: u64,
    // Every rate has one of these denominators, so that their sums have a chance to be fine enough.
    denominators: &'static [u64],
    sessions: usize,
}

const FAMILIES: [&[u64]; 5] = [
    &[1],
    &[1, 2, 3, 6],
    &[1, 2, 65_536, 524_288, 1_048_576],
    &[1, 3, 27, 531_441],
    &[1, 7, 1_001, 1_048_575, 1_048_576],
];

/// A built table, and events on it.
pub fn built(random: &mut Random, tally: &mut Tally) -> Result<(), Difference> {
    let all: Vec<u8> = (0..64).collect();
    let links = random.between(1, 3);
    let plan = Plan {
        links: random.some_of(&all, links),
        capacity: random.one_of(&[1, 2, 3, 10, 1_000_000]),
        denominators: random.one_of(&FAMILIES),
        sessions: random.one_of(&[1, 2, 3, 4, 6, 32]),
    };
    let mut pair = Pair::handed(table(&plan, random));
    for _ in 0..random.between(1, 12) {
        let records = events(&plan, &pair, random);
        let refused = pair.run(&records, tally)?.refused;
        if refused.is_some_and(|refused| refused.number == 14) {
            break;
        }
    }
    Ok(())
}

// One delivery, or more events after it in the same call, of which only the first is sure to be in
// turn. In one call the machine goes on where a handed table has led to one that fails 14.
fn events(plan: &Plan, pair: &Pair, random: &mut Random) -> Vec<u8> {
    let packets = &pair.second().packets;
    let in_turn: Vec<usize> = (0..packets.len())
        .filter(|&position| is_in_turn(packets, position))
        .collect();
    let mut bytes = match in_turn.is_empty() {
        true => link(random.under(64) as u8, 5),
        false => deliver(random.one_of(&in_turn)),
    };
    let more = random.one_of(&[0, 0, 3, 20]);
    for _ in 0..random.between(0, more) {
        let number = random.under(plan.sessions) as u8;
        bytes.extend(match random.under(12) {
            0 => session(number, 100, 0, &random.path(&plan.links)),
            1 => leave(number),
            2 => {
                let access = held_access(pair.second(), number);
                // A few are one above the access rate (02, §1).
                match random.chance(10) {
                    true => change(number, access + 1),
                    false => change(number, access.min(random.under(3) as u32)),
                }
            }
            3 => deliver(1),
            _ => deliver(0),
        });
    }
    bytes
}

fn table(plan: &Plan, random: &mut Random) -> Box<Words> {
    let mut words = zeros();
    for &number in &plan.links {
        words[link_at(usize::from(number))] = plan.capacity;
    }
    let mut leaves = Vec::new();
    for session in 0..plan.sessions {
        let active = random.chance(92);
        source(&mut words, plan, session, active, random);
        // Without its Leave on the way a session that has left may hold no entry.
        if !active && random.chance(90) {
            leaves.push(session);
        }
    }
    let most = random.one_of(&[3, 6, 20, 250, 256]);
    let count = random.between(most / 2, most);
    for place in 0..count {
        packet(&mut words, plan, place, leaves.pop(), random);
    }
    words[COUNT] = count as u64;
    words
}

// A rate of the plan in lowest terms: small, so that several fit a link.
fn rate(plan: &Plan, random: &mut Random) -> [u64; 2] {
    let den = random.one_of(plan.denominators);
    let most = match random.under(8) {
        0 => plan.capacity * den,
        1 => 1,
        _ => plan.capacity * den / plan.sessions as u64,
    };
    let num = random.between(0, most as usize) as u64;
    let divisor = common_divisor(num, den);
    [num / divisor, den / divisor]
}

fn common_divisor(a: u64, b: u64) -> u64 {
    match b {
        0 => a,
        _ => common_divisor(b, a % b),
    }
}

// A source with a path over the links of the plan, and the entries on it.
fn source(words: &mut Words, plan: &Plan, session: usize, active: bool, random: &mut Random) {
    let path = random.path(&plan.links);
    let at = source_at(session);
    words[at] = u64::from(active);
    words[at + 1] = random.one_of(&[1, 2, plan.capacity, 1_000_000]);
    // Up to the access rate, but for a few tables that meet 14 by it (02, §1).
    let maximum = random.one_of(&[0, 0, 1, plan.capacity]);
    words[at + 2] = match random.under(200) {
        0 => words[at + 1] + 1,
        _ => maximum.min(words[at + 1]),
    };
    for (place, most) in [(3, 2), (4, 3), (5, 2), (6, 2), (7, 2)] {
        words[at + place] = random.under(most) as u64;
    }
    words[at + 8..at + 10].copy_from_slice(&rate(plan, random));
    words[at + 10..at + 12].copy_from_slice(&rate(plan, random));
    words[at + 12] = path.len() as u64;
    words[at + 16..at + 24].fill(255);
    for (place, &on) in path.iter().enumerate() {
        words[at + 16 + place] = u64::from(on);
        // In R, in F, or not held.
        let set = match random.under(10) {
            0..=4 => link_at(usize::from(on)) + 1,
            5..=7 => link_at(usize::from(on)) + 2,
            _ => continue,
        };
        words[set] |= 1 << session;
        let entry = entry_at(usize::from(on), session);
        words[entry] = random.one_of(&[0, 0, 0, 1, 2, 2]);
        words[entry + 1..entry + 3].copy_from_slice(&rate(plan, random));
    }
}

// A packet on the path of its session, going the way of its kind; a few are not. For a session that
// has left its Leave, at the first hop.
fn packet(
    words: &mut Words,
    plan: &Plan,
    place: usize,
    leaves: Option<usize>,
    random: &mut Random,
) {
    let session = leaves.unwrap_or_else(|| random.under(plan.sessions));
    let kind = match leaves {
        Some(_) => 6,
        None => random.one_of(&[0, 1, 1, 2, 2, 2, 3, 4, 4, 5, 5, 6]),
    };
    let hops = words[source_at(session) + 12] as usize;
    let down = matches!(kind, 0 | 1 | 5 | 6);
    let hop = match (leaves, down) {
        (Some(_), _) => 1,
        (None, true) => random.between(1, hops + 1),
        (None, false) => random.between(0, hops),
    };
    // A Response that names this link with B as its rate is the rarer case.
    let name = match random.chance(40) {
        true => 64,
        false => u64::from(random.one_of(&plan.links)),
    };
    let [num, den] = rate(plan, random);
    let last = random.under(if kind == 2 { 3 } else { 2 }) as u64;
    let fields = [
        session as u64,
        hop as u64,
        u64::from(down),
        kind,
        num,
        den,
        name,
        last,
    ];
    let at = packet_at(place);
    words[at..at + 8].copy_from_slice(&fields);
    if random.chance(1) && random.chance(10) {
        words[at + random.under(8)] = random.under(12) as u64;
    }
}
