//! One calculation on both sides: the answer, and all three slices in full.

use second::calculation as other;
use umbraconga::{calculate, calculate_into, Declared, Refused};

use crate::difference::{same, Difference};
use crate::places;
use crate::random::Random;
use crate::tally::Tally;

/// What a calculation answers, in one form for both sides: the words of links and sessions, or the
/// number and place of the refusal.
pub type Answer = Result<(u64, u32), (u64, u64)>;

/// Compares the calculation of these records on slices of these lengths, which hold random words
/// before.
pub fn compare(
    records: &[u8],
    lengths: [usize; 3],
    random: &mut Random,
    tally: &mut Tally,
) -> Result<(), Difference> {
    let before = lengths.map(|length| (0..length).map(|_| random.number()).collect::<Vec<u64>>());
    let (ours, ours_after) = by_library(records, before.clone());
    let (second, second_after) = by_second(records, before.clone());
    same("the calculation's answer", records, ours, second)?;
    same("the lent slices", records, &ours_after, &second_after)?;
    if ours.is_err() {
        same("the slices after a refusal", records, &ours_after, &before)?;
    }
    if lengths.iter().all(|&length| length >= umbraconga::SESSIONS) {
        owned_form(records, ours, &ours_after)?;
    }
    tally.calculation(records, ours.err().map_or(0, |(number, _)| number));
    if second.is_ok() {
        tally.places(places::met(records, &second_after));
    }
    Ok(())
}

/// The same on slices of 32 places.
pub fn compare_plainly(
    records: &[u8],
    random: &mut Random,
    tally: &mut Tally,
) -> Result<(), Difference> {
    compare(records, [32; 3], random, tally)
}

/// The library's answer, and the three slices after it.
pub fn by_library(records: &[u8], mut slices: [Vec<u64>; 3]) -> (Answer, [Vec<u64>; 3]) {
    let [nums, dens, places] = &mut slices;
    let answer = calculate_into(records, nums, dens, places);
    let answer = answer
        .map(|Declared { links, sessions }| (links, sessions))
        .map_err(|Refused { number, place }| (number, place));
    (answer, slices)
}

/// The second implementation's answer, and the three slices after it.
pub fn by_second(records: &[u8], mut slices: [Vec<u64>; 3]) -> (Answer, [Vec<u64>; 3]) {
    let [nums, dens, places] = &mut slices;
    let answer = other::calculate(records, nums, dens, places);
    let answer = answer
        .map(|declared| (declared.links, declared.sessions))
        .map_err(|refused| (refused.number, refused.place));
    (answer, slices)
}

// The wrapper's form that returns the rates says the same as the one on lent slices.
fn owned_form(records: &[u8], lent: Answer, slices: &[Vec<u64>; 3]) -> Result<(), Difference> {
    let owned = calculate(records);
    let answer = match &owned {
        Ok(rates) => Ok((rates.declared().links, rates.declared().sessions)),
        Err(refused) => Err((refused.number, refused.place)),
    };
    same("the owned and the lent form", records, answer, lent)?;
    for share in owned.iter().flat_map(|rates| rates.iter()) {
        let place = match share.place {
            umbraconga::Place::Own => umbraconga::OWN,
            umbraconga::Place::Link(link) => u64::from(link),
        };
        let lent = [0, 1, 2].map(|slice| slices[slice][share.session]);
        let owned = [share.num, share.den, place];
        same(
            "a share of the owned and the lent form",
            records,
            owned,
            lent,
        )?;
    }
    Ok(())
}
