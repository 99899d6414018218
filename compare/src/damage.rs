//! Handed tables that a run has reached and that were then damaged, or filled with any numbers where
//! nothing is in use.

use crate::difference::{same, Difference};
use crate::pair::Pair;
use crate::random::Random;
use crate::runs::batch;
use crate::tally::Tally;
use crate::words::{clear_unused, in_use, link_at, packet_at, source_at, Words, LINKS, SESSIONS};
use crate::world::World;
use second::making::ODD_NUMBERS;

fn reached(random: &mut Random, tally: &mut Tally) -> Result<(World, Pair), Difference> {
    let world = World::new(random, 3, 4);
    let mut pair = Pair::empty();
    pair.run(&world.declarations(random), tally)?;
    for _ in 0..random.between(1, 3) {
        let records = batch(&world, &pair, random, 30);
        pair.run(&records, tally)?;
    }
    Ok((world, pair))
}

/// One to three words overwritten, and then events for as long as the table is taken.
pub fn damaged(random: &mut Random, tally: &mut Tally) -> Result<(), Difference> {
    let (world, reached) = reached(random, tally)?;
    // Several damages of one table that was reached.
    for _ in 0..4 {
        let mut words = Box::new(*reached.words());
        for _ in 0..random.between(1, 3) {
            damage(&mut words, random);
        }
        let mut pair = Pair::handed(words);
        for _ in 0..4 {
            let records = match random.chance(50) {
                true => world.event(random, pair.second()),
                false => batch(&world, &pair, random, 12),
            };
            let refused = pair.run(&records, tally)?.refused;
            if refused.is_some_and(|refused| refused.number == 14) {
                break;
            }
        }
    }
    Ok(())
}

// Overwrites one word, most often one that is in use: with an odd number, with one next to it, with
// a bit turned, or with another word of the table.
fn damage(words: &mut Words, random: &mut Random) {
    let used = in_use(words);
    let places: Vec<usize> = (0..words.len()).filter(|&place| used[place]).collect();
    let place = match random.under(11) {
        0 => random.under(words.len()),
        1 => source_at(random.under(32)) + random.under(24),
        2 => packet_at(random.under(3)) + random.under(8),
        3 => return damage_sets(words, random),
        4 => return damage_path(words, random),
        5 => return damage_maximum(words, random),
        // Past the links, most of which say only that they are not declared, and on to the count.
        _ => random.one_of(&places[3 * LINKS..]),
    };
    words[place] = match random.under(6) {
        0 => words[place].wrapping_add(1),
        1 => words[place].wrapping_sub(1),
        2 => words[place] ^ 1 << random.under(64),
        3 => words[random.one_of(&places)],
        _ => random.one_of(&ODD_NUMBERS),
    };
}

// Puts a session into a set of a link or takes it out: any session, or one that the link has.
fn damage_sets(words: &mut Words, random: &mut Random) {
    let declared = (0..LINKS).filter(|&link| words[link_at(link)] > 0);
    let declared: Vec<usize> = declared.collect();
    let link = match declared.is_empty() || random.chance(5) {
        true => random.under(LINKS),
        false => random.one_of(&declared),
    };
    let at = link_at(link);
    let held = words[at + 1] | words[at + 2];
    let bits = match held == 0 || random.chance(40) {
        true => 1 << random.under(32),
        // The lowest one, or all.
        false => random.one_of(&[held & held.wrapping_neg(), held]),
    };
    words[at + random.between(1, 2)] ^= bits;
}

// Lets a path go over one of its own links again, over any link, or be of another length.
fn damage_path(words: &mut Words, random: &mut Random) {
    let joined = (0..SESSIONS).filter(|&session| words[source_at(session) + 12] > 0);
    let joined: Vec<usize> = joined.collect();
    if joined.is_empty() {
        return;
    }
    let at = source_at(random.one_of(&joined));
    let place = at + 16 + random.under(words[at + 12].min(8) as usize);
    match random.under(4) {
        0 => words[place] = words[at + 16],
        1 => words[place] = random.under(LINKS) as u64,
        2 => words.swap(place, at + 16),
        _ => words[at + 12] = random.between(1, 8) as u64,
    }
}

// Makes a maximum the access rate, or one above it, or ten times as much; or the access rate the maximum,
// or one below it. Above the access rate it is a fault (02, §1) where the session has joined.
fn damage_maximum(words: &mut Words, random: &mut Random) {
    let joined = (0..SESSIONS).filter(|&session| words[source_at(session) + 12] > 0);
    let joined: Vec<usize> = joined.collect();
    let at = source_at(match joined.is_empty() || random.chance(5) {
        true => random.under(SESSIONS),
        false => random.one_of(&joined),
    });
    match random.under(5) {
        0 => words[at + 2] = words[at + 1],
        1 => words[at + 2] = words[at + 1].wrapping_add(1),
        2 => words[at + 2] = words[at + 1].wrapping_mul(10),
        3 => words[at + 1] = words[at + 2],
        _ => words[at + 1] = words[at + 2].wrapping_sub(1),
    }
}

/// The same events on a table and on one that differs where nothing is in use give the same.
pub fn unused_filled(random: &mut Random, tally: &mut Tally) -> Result<(), Difference> {
    let (world, mut plain) = reached(random, tally)?;
    let mut words = Box::new(*plain.words());
    for (place, used) in in_use(plain.words()).into_iter().enumerate() {
        if !used {
            words[place] = match random.chance(50) {
                true => random.number(),
                false => random.one_of(&ODD_NUMBERS),
            };
        }
    }
    let mut filled = Pair::handed(words);
    for _ in 0..8 {
        let records = match random.chance(50) {
            true => world.event(random, plain.second()),
            false => batch(&world, &plain, random, 20),
        };
        let ran = plain.run(&records, tally)?;
        let with_filled = filled.run(&records, tally)?;
        let what = "a run where unused words hold anything, and where they do not";
        same(what, &records, with_filled, ran)?;
        let cleared = [&filled, &plain].map(|pair| {
            let mut words = Box::new(*pair.words());
            clear_unused(&mut words);
            words
        });
        let what = "the words in use where unused ones held anything";
        same(what, &records, cleared[0] == cleared[1], true)?;
    }
    Ok(())
}
