//! Handed tables that are settled or nearly so: a settled table that a run has reached, with one or two
//! things changed within their ranges. Each of the five conditions of "settled" is then missed alone;
//! and where the table is still settled, its rates must still be the calculation's.

use crate::difference::Difference;
use crate::pair::Pair;
use crate::random::Random;
use crate::runs::{batch, deliver_many};
use crate::tally::Tally;
use crate::words::{entry_at, link_at, packet_at, source_at, Words, COUNT};
use crate::world::World;

/// One settled table, and many that differ a little from it.
pub fn nearly_settled(random: &mut Random, tally: &mut Tally) -> Result<(), Difference> {
    let world = World::new(random, 3, 4);
    let mut pair = Pair::empty();
    pair.run(&world.declarations(random), tally)?;
    let records = batch(&world, &pair, random, 30);
    pair.run(&records, tally)?;
    for _ in 0..10 {
        deliver_many(&world, &mut pair, random, tally)?;
    }
    let active: Vec<usize> = (0..32)
        .filter(|&session| pair.second().sources[session].is_active())
        .collect();
    if active.is_empty() {
        return Ok(());
    }
    for _ in 0..40 {
        let mut words = Box::new(*pair.words());
        for _ in 0..random.between(1, 2) {
            let session = random.one_of(&active);
            change(&mut words, session, random);
        }
        // No record: the answer to the settled question is compared after every run.
        Pair::handed(words).run(&[], tally)?;
    }
    Ok(())
}

fn change(words: &mut Words, session: usize, random: &mut Random) {
    let at = source_at(session);
    let hops = words[at + 12] as usize;
    let link = words[at + 16 + random.under(hops)] as usize;
    let entry = entry_at(link, session);
    match random.under(15) {
        // From R to F or back, at one link; out of both.
        0..=3 => {
            words[link_at(link) + 1] ^= 1 << session;
            words[link_at(link) + 2] ^= 1 << session;
        }
        4 => {
            words[link_at(link) + 1] &= !(1 << session);
            words[link_at(link) + 2] &= !(1 << session);
        }
        5 => words[entry] = random.between(1, 2) as u64,
        6 => words[at + 4] = random.between(1, 2) as u64,
        // An update noted, or a bottleneck, which no condition speaks of; nothing told.
        7 => words[at + random.between(5, 6)] ^= 1,
        8 => words[at + 7] = 0,
        9 => words[at + 10] = words[at + 11] * random.between(0, 9) as u64 + 1,
        // D comes near the rate, by the maximum or by the access rate, of which the maximum may then be
        // above the other, which is a fault (02, §1); the link carries one more or less.
        10 => words[at + 2] = near(words[at + 8] / words[at + 9], random),
        11 => words[at + 1] = near(words[at + 8] / words[at + 9], random).max(1),
        12 => words[link_at(link)] = near(words[link_at(link)], random).max(1),
        13 => rate_everywhere(words, session, random),
        // One packet in flight, an Update about to reach the source.
        _ => {
            let update = [session as u64, 0, 0, 3, 0, 1, 64, 0];
            words[packet_at(0)..packet_at(1)].copy_from_slice(&update);
            words[COUNT] = 1;
        }
    }
}

// The number, or one more or less, up to the largest rate.
fn near(number: u64, random: &mut Random) -> u64 {
    (number + random.under(3) as u64).clamp(1, 1_000_001) - 1
}

// The session has another whole rate at its source, as last told, and at every link.
fn rate_everywhere(words: &mut Words, session: usize, random: &mut Random) {
    let at = source_at(session);
    let rate = [near(words[at + 8] / words[at + 9], random), 1];
    words[at + 8..at + 10].copy_from_slice(&rate);
    words[at + 10..at + 12].copy_from_slice(&rate);
    for place in 0..words[at + 12] as usize {
        let entry = entry_at(words[at + 16 + place] as usize, session);
        words[entry + 1..entry + 3].copy_from_slice(&rate);
    }
}
