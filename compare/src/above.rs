//! Maxima above the access rate (02, §1): refusal 16 on purpose, in session records and in changes, at its
//! limits and beside other refusals, and random networks that meet it.

use crate::calculation::{by_second, compare_plainly};
use crate::difference::{same, Difference};
use crate::networks::{damage, network};
use crate::pair::Pair;
use crate::purpose::{drain, refuse, take, MOST};
use crate::random::Random;
use crate::runs::record_ends;
use crate::tally::Tally;
use second::making::{change, leave, link, maximum_above, session};

// The refusal that is meant, and session, access rate, maximum and path of a record after link 0 of 10 and
// session 0 of access 100 over it: equal or none, 16 alone, and beside 5 to 8, of which it comes before 8
// alone.
const MAXIMA: [(u64, u8, u32, u32, &[u8]); 18] = [
    (0, 1, 100, 100, &[0]),
    (0, 1, 100, 99, &[0]),
    (0, 1, 100, 0, &[0]),
    (0, 1, 1, 1, &[0]),
    (0, 1, MOST, MOST, &[0]),
    (16, 1, 100, 101, &[0]),
    (16, 1, 100, 1_000, &[0]),
    (16, 1, 1, 2, &[0]),
    (16, 1, 1, MOST, &[0]),
    (16, 1, MOST - 1, MOST, &[0]),
    (5, 1, 100, MOST + 1, &[0]),
    (5, 1, MOST, MOST + 1, &[0]),
    (5, 1, 0, 1, &[0]),
    (6, 1, 100, 101, &[]),
    (6, 1, 100, 101, &[0, 0]),
    (7, 0, 100, 101, &[0]),
    (16, 1, 100, 101, &[0, 5]),
    (8, 1, 100, 100, &[0, 5]),
];

// The records that stand before those of `MAXIMA`.
fn before_maxima() -> Vec<u8> {
    [link(0, 10), session(0, 100, 0, &[0])].concat()
}

/// These records in the calculation.
pub fn calculations_on_purpose(random: &mut Random, tally: &mut Tally) -> Result<(), Difference> {
    for (number, of, access, maximum, path) in MAXIMA {
        let record = session(of, access, maximum, path);
        let records = [before_maxima(), record, link(1, 1)].concat();
        compare_plainly(&records, random, tally)?;
        let (answer, _) = by_second(&records, [(); 3].map(|()| vec![0; 32]));
        let met = answer.err().map_or(0, |(number, _)| number);
        same("the refusal that was meant", &records, met, number)?;
    }
    Ok(())
}

/// These records in the machine, and changes, at and above the access rate, and beside the refusals that are
/// tried before and after 16.
pub fn runs_on_purpose(_: &mut Random, tally: &mut Tally) -> Result<(), Difference> {
    let joined = before_maxima();
    let left = [joined.clone(), leave(0)].concat();
    let mut runs: Vec<(u64, &[u8], Vec<u8>)> = MAXIMA
        .into_iter()
        .map(|(number, of, access, maximum, path)| {
            (number, &joined[..], session(of, access, maximum, path))
        })
        .collect();
    runs.extend([
        (0, &joined[..], change(0, 100)),
        (0, &joined, change(0, 99)),
        (0, &joined, change(0, 0)),
        (16, &joined, change(0, 101)),
        (16, &joined, change(0, 1_000)),
        (16, &joined, change(0, MOST)),
        (5, &joined, change(0, MOST + 1)),
        // 9 comes before 16: a session that never joined, and one whose source still holds the rate.
        (9, &joined, change(1, 1)),
        (9, &left, change(0, 101)),
        // 16 comes before 10, also with 8 besides.
        (16, &left, session(0, 100, 101, &[0])),
        (16, &left, session(0, 100, 101, &[5])),
        (10, &left, session(0, 100, 100, &[0])),
    ]);
    for (number, before, record) in runs {
        let mut pair = Pair::empty();
        take(&mut pair, before, tally)?;
        refuse(&mut pair, &record, number, tally)?;
        // The same in one call, with a record after it that is not looked at where it is refused.
        let records = [before, &record, &link(1, 1)].concat();
        refuse(&mut Pair::empty(), &records, number, tally)?;
    }
    above_after_joining_again(tally)?;
    above_with_a_full_list(tally)
}

// A change is held to the access rate of the last join, not to a maximum or an access rate before.
fn above_after_joining_again(tally: &mut Tally) -> Result<(), Difference> {
    let mut pair = Pair::empty();
    take(&mut pair, &before_maxima(), tally)?;
    for maximum in [1, 100, 0] {
        take(&mut pair, &change(0, maximum), tally)?;
        refuse(&mut pair, &change(0, 101), 16, tally)?;
    }
    drain(&mut pair, |_| true, tally)?;
    take(&mut pair, &leave(0), tally)?;
    drain(&mut pair, |_| true, tally)?;
    refuse(&mut pair, &session(0, 50, 51, &[0]), 16, tally)?;
    take(&mut pair, &session(0, 50, 50, &[0]), tally)?;
    refuse(&mut pair, &change(0, 100), 16, tally)?;
    refuse(&mut pair, &change(0, 51), 16, tally)?;
    take(&mut pair, &change(0, 50), tally)?;
    pair.again(&[], tally)
}

// 31 sessions at rest on one link, of which session 0 asks for its rate again and again; with sixteen
// Leaves the list is full. Session 31 never joined.
fn above_with_a_full_list(tally: &mut Tally) -> Result<(), Difference> {
    let mut pair = Pair::empty();
    take(&mut pair, &link(0, 31), tally)?;
    for number in 0..31 {
        take(&mut pair, &session(number, 100, 0, &[0]), tally)?;
    }
    drain(&mut pair, |_| true, tally)?;
    for _ in 0..8 {
        take(&mut pair, &change(0, 0), tally)?;
        drain(&mut pair, |packet| packet.session == 0, tally)?;
    }
    for number in 1..=16 {
        take(&mut pair, &leave(number), tally)?;
    }
    refuse(&mut pair, &session(31, 100, 101, &[0]), 16, tally)?;
    refuse(&mut pair, &session(31, 100, 100, &[0]), 13, tally)?;
    refuse(&mut pair, &change(0, 101), 16, tally)?;
    refuse(&mut pair, &change(0, 100), 13, tally)?;
    refuse(&mut pair, &change(1, 101), 9, tally)?;
    // Session 1 has left and has packets in flight.
    refuse(&mut pair, &session(1, 100, 101, &[0]), 16, tally)?;
    refuse(&mut pair, &session(1, 100, 100, &[0]), 10, tally)
}

/// A network in which the maximum of one session, or of more, is above its access rate (02, §1); some of
/// these are damaged besides.
pub fn networks(random: &mut Random, tally: &mut Tally) -> Result<(), Difference> {
    let mut records = network(random);
    let ends = record_ends(&records);
    let starts = [0].into_iter().chain(ends);
    let sessions: Vec<usize> = starts
        .filter(|&place| records.get(place) == Some(&2))
        .collect();
    for _ in 0..random.one_of(&[1, 1, 1, 3]) {
        let place = random.one_of(&sessions);
        let access = &records[place + 2..place + 6];
        let access = u32::from_be_bytes(access.try_into().expect("four bytes"));
        let above = maximum_above(access, |count| random.under(count));
        records[place + 6..place + 10].copy_from_slice(&above.to_be_bytes());
    }
    if random.chance(30) {
        damage(&mut records, random);
    }
    compare_plainly(&records, random, tally)
}
