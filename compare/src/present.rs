//! Tables whose records are written out (02, §3), with the bytes that are meant: built on purpose, and of
//! random networks.

use umbraconga::RECORDS_MOST;

use crate::difference::{same, Difference};
use crate::networks::{network, sized_network};
use crate::pair::Pair;
use crate::purpose::{drain, take, MOST};
use crate::random::Random;
use crate::runs::record_ends;
use crate::tally::Tally;
use crate::words::{link_at, source_at};
use crate::writing::Answer;
use second::making::{change, deliver, leave, link, session};

/// All that are built on purpose, each written into slices of every length.
pub fn on_purpose(_: &mut Random, tally: &mut Tally) -> Result<(), Difference> {
    for (records, meant) in tables() {
        let mut pair = Pair::empty();
        take(&mut pair, &records, tally)?;
        written(&pair, &meant, tally)?;
        // The same at rest: packets and task states are not kept.
        drain(&mut pair, |_| true, tally)?;
        written(&pair, &meant, tally)?;
    }
    leaving(tally)?;
    fourteen_first(tally)
}

/// Compares that this is written of a table, into slices of every length, and reads it back.
pub fn written(pair: &Pair, meant: &[u8], tally: &mut Tally) -> Result<(), Difference> {
    pair.output().is(meant, tally)?;
    let size = meant.len();
    let lengths = every_length(size);
    compare_each(pair, lengths, |length| answer(size, length), tally)
}

// From none to more than enough for an output of this size.
fn every_length(size: usize) -> impl Iterator<Item = usize> {
    (0..=size + 40).chain([RECORDS_MOST, RECORDS_MOST + 1])
}

// What the writer answers on a slice of this length, for an output of this size.
fn answer(size: usize, length: usize) -> Answer {
    match length < size {
        true => Err((17, 0)),
        false => Ok(size as u64),
    }
}

// Slices of these lengths, each with the answer that is meant.
fn compare_each(
    pair: &Pair,
    lengths: impl IntoIterator<Item = usize>,
    meant: impl Fn(usize) -> Answer,
    tally: &mut Tally,
) -> Result<(), Difference> {
    let output = pair.output();
    for length in lengths {
        let answer = output.compare(length, tally)?;
        let what = format!("the answer that was meant, on a slice of {length} bytes");
        same(&what, pair.taken(), answer, meant(length))?;
    }
    Ok(())
}

// Records, and what is written of the table after them.
fn tables() -> Vec<(Vec<u8>, Vec<u8>)> {
    let path = |length: u8| -> Vec<u8> { (0..length).rev().collect() };
    let eight: Vec<u8> = (0..8).flat_map(|number| link(number, 10)).collect();
    let mut tables = vec![
        (Vec::new(), Vec::new()),
        (link(63, MOST), link(63, MOST)),
        falling(),
        fullest(),
    ];
    // Paths of each length, against the order of the numbers.
    for length in 1..=8 {
        let records = [&eight[..], &session(31, 100, 0, &path(length))].concat();
        tables.push((records.clone(), records));
    }
    // Maxima as they were declared, and as they were changed, once and more often.
    for (declared, changes, present) in [
        (0, &[][..], 0),
        (1, &[], 1),
        (100, &[], 100),
        (50, &[0], 0),
        (0, &[100], 100),
        (7, &[100, 0, 3], 3),
        (0, &[1, 0], 0),
    ] {
        let with = |maximum| [link(5, 10), session(0, 100, maximum, &[5])].concat();
        let changes = changes.iter().flat_map(|&maximum| change(0, maximum));
        let records = with(declared).into_iter().chain(changes).collect();
        tables.push((records, with(present)));
    }
    tables
}

// Links and sessions in falling order, sessions before the last links: 258 is 0102, 66,051 is 010203.
fn falling() -> (Vec<u8>, Vec<u8>) {
    let links = [link(63, 258), link(62, 66_051), link(1, 1), link(0, MOST)];
    let sessions = [
        session(31, 66_051, 258, &[62, 63]),
        session(30, 1, 1, &[63]),
        session(0, MOST, MOST, &[0, 63, 1]),
    ];
    let [d, c, b, a] = &links;
    let [z, y, x] = &sessions;
    (
        [d, c, z, y, b, a, x].map(Vec::as_slice).concat(),
        [a, b, c, d, x, y, z].map(Vec::as_slice).concat(),
    )
}

// All links and all sessions, with the largest rates and the longest paths.
fn fullest() -> (Vec<u8>, Vec<u8>) {
    let links = (0..64).flat_map(|number| link(number, MOST));
    let sessions = (0..32).flat_map(|number| {
        let path: Vec<u8> = (number..number + 8).collect();
        session(number, MOST, MOST, &path)
    });
    let records: Vec<u8> = links.chain(sessions).collect();
    (records.clone(), records)
}

// Session 0 leaves from rest, and is not written while its Leave and what follows from it travel, nor after
// that; then it joins anew. Session 2 leaves before its Join arrives.
fn leaving(tally: &mut Tally) -> Result<(), Difference> {
    let links = [link(0, 10), link(1, 20)].concat();
    let stays = session(1, 100, 0, &[0]);
    let mut pair = Pair::empty();
    let joins = [&links, &session(0, 100, 4, &[0, 1])[..], &stays].concat();
    take(&mut pair, &joins, tally)?;
    drain(&mut pair, |_| true, tally)?;
    take(&mut pair, &leave(0), tally)?;
    let without = [&links[..], &stays].concat();
    while !pair.second().packets.is_empty() {
        written(&pair, &without, tally)?;
        take(&mut pair, &deliver(0), tally)?;
    }
    written(&pair, &without, tally)?;
    let anew = session(0, 50, 0, &[1]);
    take(&mut pair, &anew, tally)?;
    let at_once = [session(2, 100, 0, &[1, 0]), leave(2)].concat();
    take(&mut pair, &at_once, tally)?;
    written(&pair, &[links, anew, stays].concat(), tally)
}

// Two tables with a fault, one in a link and one in the session that leaves: 14 on slices of every length.
fn fourteen_first(tally: &mut Tally) -> Result<(), Difference> {
    let (records, output) = falling();
    let mut pair = Pair::empty();
    take(&mut pair, &[records, leave(30)].concat(), tally)?;
    for (at, number) in [(link_at(63), 1_000_001), (source_at(30) + 2, 2)] {
        let mut words = Box::new(*pair.words());
        words[at] = number;
        let damaged = Pair::handed(words);
        let lengths = every_length(output.len());
        compare_each(&damaged, lengths, |_| Err((14, 0)), tally)?;
    }
    Ok(())
}

/// The records of a network, in any order: what is written are the same in the writer's order.
pub fn networks(random: &mut Random, tally: &mut Tally) -> Result<(), Difference> {
    let records = match random.chance(10) {
        true => sized_network(random, 64, 32, None),
        false => network(random),
    };
    let mut pair = Pair::empty();
    take(&mut pair, &records, tally)?;
    let meant = in_order(&records);
    pair.output().is(&meant, tally)?;
    let size = meant.len();
    let lengths = [size, size - 1, random.under(RECORDS_MOST)];
    compare_each(&pair, lengths, |length| answer(size, length), tally)
}

// The links, then the sessions, by rising number.
fn in_order(records: &[u8]) -> Vec<u8> {
    let mut from = 0;
    let mut each: Vec<&[u8]> = Vec::new();
    for end in record_ends(records) {
        each.push(&records[from..end]);
        from = end;
    }
    // The first two bytes are the kind and the number.
    each.sort_by_key(|record| [record[0], record[1]]);
    each.concat()
}
