//! Random runs of the machine from the empty table: one record a call, many records a call, and the
//! same records in one call and in several.

use second::machine::run;
use umbraconga::Ran;

use crate::difference::Difference;
use crate::networks::{damage, INPUT_BYTES};
use crate::pair::Pair;
use crate::random::Random;
use crate::tally::Tally;
use crate::world::World;
use second::making::{change, held_access, record_bytes};

/// A run in a small world, one record in each call, until nothing is in flight; then once more in
/// one call and in several.
pub fn one_record_a_call(random: &mut Random, tally: &mut Tally) -> Result<(), Difference> {
    let world = World::new(random, 4, 6);
    let mut pair = Pair::empty();
    pair.run(&world.declarations(random), tally)?;
    for _ in 0..random.under(60) {
        let record = world.event(random, pair.second());
        pair.run(&record, tally)?;
    }
    // That every run settles is not promised, so the end is not waited for without limit.
    for _ in 0..1_000 {
        let Some(record) = world.delivery(random, &pair.second().packets) else {
            break;
        };
        pair.run(&record, tally)?;
    }
    again(&pair, random, tally)
}

/// A run in a larger world, many records in each call, some of them refused or damaged.
pub fn many_records_a_call(random: &mut Random, tally: &mut Tally) -> Result<(), Difference> {
    let (links, sessions) = random.one_of(&[(3, 4), (6, 12), (20, 32), (64, 32)]);
    let world = World::new(random, links, sessions);
    let mut pair = Pair::empty();
    pair.run(&world.declarations(random), tally)?;
    for _ in 0..random.under(20) {
        let records = batch(&world, &pair, random, 40);
        pair.run(&records, tally)?;
    }
    for _ in 0..40 {
        if pair.second().packets.is_empty() {
            break;
        }
        deliver_many(&world, &mut pair, random, tally)?;
    }
    again(&pair, random, tally)
}

/// Up to `most` records, each chosen after those before it. A refused one mostly stays out, so that
/// the batch goes on; some batches are damaged.
pub fn batch(world: &World, pair: &Pair, random: &mut Random, most: usize) -> Vec<u8> {
    let mut scratch = pair.second().clone();
    let mut bytes = Vec::new();
    for _ in 0..random.between(1, most) {
        let record = world.event(random, &scratch);
        let refused = run(&mut scratch, &record).refused;
        if refused.is_none() || random.chance(5) {
            bytes.extend(record);
        }
    }
    if random.chance(10) {
        damage(&mut bytes, random);
    }
    bytes
}

/// Up to 200 deliveries in one call, all in turn.
pub fn deliver_many(
    world: &World,
    pair: &mut Pair,
    random: &mut Random,
    tally: &mut Tally,
) -> Result<Ran, Difference> {
    let mut scratch = pair.second().clone();
    let mut bytes = Vec::new();
    for _ in 0..200 {
        let Some(record) = world.delivery(random, &scratch.packets) else {
            break;
        };
        bytes.extend(&record);
        if run(&mut scratch, &record).refused.is_some() {
            break;
        }
    }
    pair.run(&bytes, tally)
}

// The same records in one call, where they are not too long for it, and in several.
fn again(pair: &Pair, random: &mut Random, tally: &mut Tally) -> Result<(), Difference> {
    let ends = record_ends(pair.taken());
    if pair.taken().len() <= INPUT_BYTES {
        pair.again(&[], tally)?;
    }
    let cuts: Vec<usize> = ends.into_iter().filter(|_| random.chance(5)).collect();
    let mut longest = 0;
    let mut from = 0;
    for &cut in cuts.iter().chain([&pair.taken().len()]) {
        longest = longest.max(cut - from);
        from = cut;
    }
    if longest <= INPUT_BYTES {
        pair.again(&cuts, tally)?;
    }
    Ok(())
}

/// The places after each record of these, all of which were taken.
pub fn record_ends(records: &[u8]) -> Vec<usize> {
    let mut ends = Vec::new();
    let mut place = 0;
    while place < records.len() {
        place += record_bytes(records[place]);
        ends.push(place);
    }
    ends
}

/// Inputs around the largest size, on a table that a run has reached.
pub fn too_long(random: &mut Random, tally: &mut Tally) -> Result<(), Difference> {
    let world = World::new(random, 4, 6);
    let mut pair = Pair::empty();
    pair.run(&world.declarations(random), tally)?;
    let records = batch(&world, &pair, random, 40);
    pair.run(&records, tally)?;
    let length = match random.under(3) {
        0 => INPUT_BYTES,
        1 => INPUT_BYTES + 1,
        _ => random.between(INPUT_BYTES - 100, INPUT_BYTES + 20_000),
    };
    // An active session can change again and again, up to its access rate.
    let active = (0..32).find(|&session| pair.second().sources[session].is_active());
    let number = active.unwrap_or(0) as u8;
    let access = held_access(pair.second(), number);
    let mut records = Vec::new();
    while records.len() < length {
        records.extend(change(number, access.min(random.under(3) as u32)));
    }
    records.truncate(length);
    pair.run(&records, tally)?;
    Ok(())
}
