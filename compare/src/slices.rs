//! Lent slices of every length from 0 to 40: refusal 15, which comes before every other.

use crate::calculation::compare;
use crate::difference::Difference;
use crate::networks::{network, INPUT_BYTES};
use crate::random::Random;
use crate::tally::Tally;

/// Each slice with each length, the other two with each of a few, for records that are accepted,
/// refused, too long, and none.
pub fn every_length(random: &mut Random, tally: &mut Tally) -> Result<(), Difference> {
    let accepted = network(random);
    let refused = [accepted.clone(), vec![0]].concat();
    let too_long = vec![1; INPUT_BYTES + 1];
    for records in [accepted, refused, too_long, Vec::new()] {
        for length in 0..=40 {
            for others in [0, 31, 32, 40] {
                for which in 0..3 {
                    let mut lengths = [others; 3];
                    lengths[which] = length;
                    compare(&records, lengths, random, tally)?;
                }
            }
        }
    }
    Ok(())
}
