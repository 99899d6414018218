//! Handed tables for each clause of refusal 14, built on purpose, and one word after another.

use second::machine::{passes_14, Fault};

use crate::difference::{same, Difference};
use crate::pair::Pair;
use crate::random::Random;
use crate::tally::Tally;
use crate::words::{entry_at, in_use, link_at, packet_at, source_at, table_of, Words, COUNT};
use second::making::{deliver, leave, link, session, ODD_NUMBERS};

// A packet of session 0 for each kind that `reached` has none of: hop, down, kind, rate, name, and what
// a Response or SetBottleneck says.
const MORE_PACKETS: [[u64; 8]; 5] = [
    [0, 1, 1, 1, 100, 1, 64, 0],
    [0, 1, 0, 2, 5, 1, 0, 2],
    [0, 0, 0, 3, 0, 0, 0, 0],
    [0, 2, 0, 4, 0, 0, 0, 0],
    [0, 2, 1, 5, 0, 0, 0, 1],
];

// A table without a fault: what `reached` leaves, and a packet of every kind.
fn sound(tally: &mut Tally) -> Result<Box<Words>, Difference> {
    let mut words = Box::new(*reached(tally)?.words());
    for (place, packet) in (2..).zip(MORE_PACKETS) {
        words[packet_at(place)..packet_at(place + 1)].copy_from_slice(&packet);
    }
    words[COUNT] += MORE_PACKETS.len() as u64;
    same(
        "a table without a fault",
        &[],
        passes_14(&table_of(&words)),
        Ok(()),
    )?;
    Ok(words)
}

// Links 0 of 10 and 1 of 20, session 0 over both at rest and in F of link 1, session 1 over link 0
// with its Join on the way, session 2 over both gone again but for its Leave, about to reach link 1.
fn reached(tally: &mut Tally) -> Result<Pair, Difference> {
    let mut pair = Pair::empty();
    let both = [0, 1];
    let records = [
        link(0, 10),
        link(1, 20),
        session(0, 100, 0, &both),
        deliver(0).repeat(8),
        session(2, 100, 0, &both),
    ];
    same_taken(&mut pair, &records.concat(), tally)?;
    while !pair.second().packets.is_empty() {
        same_taken(&mut pair, &deliver(0), tally)?;
    }
    same_taken(&mut pair, &[leave(2), deliver(0)].concat(), tally)?;
    // All but the Leave, which is at hop 2 of its way down.
    while let Some(at) = pair
        .second()
        .packets
        .iter()
        .position(|packet| packet.session != 2)
    {
        same_taken(&mut pair, &deliver(at), tally)?;
    }
    same_taken(&mut pair, &session(1, 100, 0, &[0]), tally)?;
    Ok(pair)
}

fn same_taken(pair: &mut Pair, records: &[u8], tally: &mut Tally) -> Result<(), Difference> {
    let refused = pair.run(records, tally)?.refused;
    same("records that should be taken", records, refused, None)
}

// What is written into the sound table, place and number, and the clause that it then fails.
type Damage = (Fault, &'static [(usize, u64)]);

const DAMAGES: [Damage; 44] = [
    (Fault::FieldOutsideRange, &[(link_at(0), 1_000_001)]),
    (Fault::FieldOutsideRange, &[(link_at(0) + 1, 1 << 32 | 1)]),
    (Fault::FieldOutsideRange, &[(link_at(40) + 2, 1 << 63)]),
    (Fault::FieldOutsideRange, &[(entry_at(0, 0), 3)]),
    (Fault::FieldOutsideRange, &[(entry_at(0, 0) + 1, 1_000_001)]),
    (Fault::FieldOutsideRange, &[(entry_at(0, 0) + 2, 0)]),
    (Fault::FieldOutsideRange, &[(source_at(0), 2)]),
    (Fault::FieldOutsideRange, &[(source_at(0) + 1, 0)]),
    (Fault::FieldOutsideRange, &[(source_at(0) + 2, 1_000_001)]),
    (Fault::FieldOutsideRange, &[(source_at(0) + 3, 2)]),
    (Fault::FieldOutsideRange, &[(source_at(0) + 4, 3)]),
    (Fault::FieldOutsideRange, &[(source_at(0) + 5, 2)]),
    (Fault::FieldOutsideRange, &[(source_at(0) + 6, 2)]),
    (Fault::FieldOutsideRange, &[(source_at(0) + 7, 2)]),
    (Fault::FieldOutsideRange, &[(source_at(0) + 12, 9)]),
    (Fault::FieldOutsideRange, &[(source_at(0) + 16, 64)]),
    // Active without a path, and a path where nobody joined.
    (Fault::FieldOutsideRange, &[(source_at(9), 1)]),
    (Fault::FieldOutsideRange, &[(source_at(9) + 12, 1)]),
    // The second packet is a Join, the fourth a Response, the seventh a SetBottleneck.
    (Fault::FieldOutsideRange, &[(packet_at(1), 32)]),
    (Fault::FieldOutsideRange, &[(packet_at(1) + 2, 2)]),
    (Fault::FieldOutsideRange, &[(packet_at(1) + 3, 7)]),
    (Fault::FieldOutsideRange, &[(packet_at(1) + 5, 1_048_577)]),
    (Fault::FieldOutsideRange, &[(packet_at(1) + 6, 65)]),
    (Fault::FieldOutsideRange, &[(packet_at(3) + 7, 3)]),
    (Fault::FieldOutsideRange, &[(packet_at(6) + 7, 2)]),
    (Fault::FieldOutsideRange, &[(COUNT, 257)]),
    (Fault::RateNotInLowestTerms, &[(packet_at(1) + 5, 2)]),
    (Fault::RateNotInLowestTerms, &[(source_at(0) + 9, 5)]),
    (Fault::PathOverUndeclaredLink, &[(source_at(0) + 17, 5)]),
    (Fault::PathOverLinkTwice, &[(source_at(0) + 17, 0)]),
    (Fault::PacketOffItsPath, &[(packet_at(1) + 1, 3)]),
    (Fault::PacketGoingTheWrongWay, &[(packet_at(1) + 3, 3)]),
    (Fault::SessionInBothSets, &[(link_at(0) + 2, 1)]),
    (Fault::EntryOffItsPath, &[(link_at(1) + 1, 1 << 1)]),
    (Fault::EntryOfAGoneSession, &[(packet_at(0) + 1, 3)]),
    (Fault::SumPastCapacity, &[(entry_at(1, 0) + 1, 21)]),
    (Fault::SumsTooFine, &PARTIAL_SUM),
    (Fault::SumsTooFine, &BOTTLENECK_RATE),
    // Session 0 is active and at rest, session 1 joins, session 2 has left; their access rate is 100.
    (Fault::MaximumAboveAccess, &[(source_at(0) + 2, 101)]),
    (Fault::MaximumAboveAccess, &[(source_at(0) + 2, 1_000_000)]),
    (Fault::MaximumAboveAccess, &[(source_at(1) + 2, 101)]),
    (Fault::MaximumAboveAccess, &[(source_at(2) + 2, 101)]),
    (
        Fault::MaximumAboveAccess,
        &[(source_at(0) + 1, 1), (source_at(0) + 2, 2)],
    ),
    (
        Fault::MaximumAboveAccess,
        &[(source_at(2) + 1, 999_999), (source_at(2) + 2, 1_000_000)],
    ),
];

// What leaves the table without a fault: maxima up to the access rate (02, §1), and any words of a
// session that never joined.
const NEIGHBOURS: [&[(usize, u64)]; 8] = [
    &[(source_at(0) + 2, 100)],
    &[(source_at(0) + 2, 0)],
    &[(source_at(1) + 2, 99)],
    &[(source_at(2) + 2, 100)],
    &[(source_at(0) + 1, 1), (source_at(0) + 2, 1)],
    &[(source_at(2) + 1, 1_000_000), (source_at(2) + 2, 1_000_000)],
    &[(source_at(9) + 1, 1), (source_at(9) + 2, 2)],
    &[(source_at(9) + 2, u64::MAX)],
];

// The partial sum of 1/1,048,576 and 1/3 in F of link 1.
const PARTIAL_SUM: [(usize, u64); 4] = [
    (entry_at(1, 0) + 1, 1),
    (entry_at(1, 0) + 2, 1_048_576),
    (entry_at(1, 2) + 1, 1),
    (entry_at(1, 2) + 2, 3),
];

// B of link 1 with 1/1,048,576 in F and two sessions in R, of which session 1 gets a path over it.
const BOTTLENECK_RATE: [(usize, u64); 9] = [
    (entry_at(1, 0) + 1, 1),
    (entry_at(1, 0) + 2, 1_048_576),
    (entry_at(1, 1), 0),
    (entry_at(1, 1) + 1, 1),
    (entry_at(1, 1) + 2, 1),
    (source_at(1) + 12, 2),
    (source_at(1) + 17, 1),
    (link_at(1) + 1, 0b110),
    (link_at(1) + 2, 0b001),
];

/// Each clause of 14, and tables next to a fault that are taken.
pub fn every_clause(_: &mut Random, tally: &mut Tally) -> Result<(), Difference> {
    let sound = sound(tally)?;
    for (place, neighbour) in NEIGHBOURS.into_iter().enumerate() {
        let words = written(&sound, neighbour);
        let what = format!("neighbour {place}, which has no fault");
        same(&what, &[], passes_14(&table_of(&words)), Ok(()))?;
        for records in [&[][..], &deliver(0), &deliver(1)] {
            same_taken(&mut Pair::handed(words.clone()), records, tally)?;
        }
    }
    let too_long = vec![1; 40_000];
    for (place, (fault, damage)) in DAMAGES.into_iter().enumerate() {
        let words = written(&sound, damage);
        let clause = passes_14(&table_of(&words));
        let what = format!("the clause that damage {place} fails");
        same(&what, &[], clause, Err(fault))?;
        for records in [&[][..], &deliver(0), &too_long] {
            let mut pair = Pair::handed(words.clone());
            let refused = pair.run(records, tally)?.refused;
            let number = refused.map_or(0, |refused| refused.number);
            same("14, which comes before 1", records, number, 14)?;
        }
    }
    Ok(())
}

// The table with these numbers written at these places.
fn written(sound: &Words, numbers: &[(usize, u64)]) -> Box<Words> {
    let mut words = Box::new(*sound);
    for &(at, number) in numbers {
        words[at] = number;
    }
    words
}

/// One word after another made the largest number: where it is in use the table is refused 14, and
/// else it is as it was. A word in use is also given each odd number.
pub fn every_word(_: &mut Random, tally: &mut Tally) -> Result<(), Difference> {
    let sound = sound(tally)?;
    for (place, used) in in_use(&sound).into_iter().enumerate() {
        let number = refusal_with(&sound, place, u64::MAX, tally)?;
        let what = format!("word {place} made the largest number, in use: {used}");
        same(&what, &[], number, if used { 14 } else { 0 })?;
        for odd in ODD_NUMBERS.into_iter().filter(|_| used) {
            refusal_with(&sound, place, odd, tally)?;
        }
    }
    Ok(())
}

// The refusal of a delivery on the sound table with one word made another number, or 0.
fn refusal_with(
    sound: &Words,
    place: usize,
    number: u64,
    tally: &mut Tally,
) -> Result<u64, Difference> {
    let mut words = Box::new(*sound);
    words[place] = number;
    let refused = Pair::handed(words).run(&deliver(0), tally)?.refused;
    Ok(refused.map_or(0, |refused| refused.number))
}
