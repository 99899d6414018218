//! What the program `bench` is made of: the times of the library beside the second implementation
//! and beside SimGrid's solver, how they grow with the input, and the tables and the picture that
//! say it. Of many rounds, in which the sides take turns, the lowest time of each counts.

pub mod beside;
pub mod growth;
pub mod machine;
pub mod markdown;
pub mod peer;
pub mod picture;

use std::hint::black_box;
use std::time::{Duration, Instant};

/// Passes over all inputs: what the machine does besides for some seconds then falls on a few passes
/// of all inputs, and not on all rounds of a few.
pub const PASSES: usize = 25;

/// The lowest of each of the times over the rounds of a pass; a round gives the times anew. The turns
/// in it are short, so that not every one is disturbed.
pub fn lowest<Times: AsMut<[Duration]>>(
    rounds: usize,
    mut round: impl FnMut() -> Result<Times, String>,
) -> Result<Times, String> {
    let mut lowest = round()?;
    for _ in 1..rounds {
        for (low, now) in lowest.as_mut().iter_mut().zip(round()?.as_mut()) {
            *low = (*now).min(*low);
        }
    }
    Ok(lowest)
}

/// How long the work takes.
pub fn timed(work: impl FnOnce()) -> Duration {
    let start = Instant::now();
    work();
    start.elapsed()
}

/// Microseconds of one of so many pieces of work that took this time together.
pub fn microseconds(time: Duration, pieces: usize) -> f64 {
    time.as_secs_f64() * 1e6 / pieces as f64
}

/// The library calculates so many times.
pub fn library(records: &[u8], times: usize) -> Duration {
    let [mut nums, mut dens, mut places] = [[0; 32]; 3];
    timed(|| {
        for _ in 0..times {
            let records = black_box(records);
            let answer = umbraconga::calculate_into(records, &mut nums, &mut dens, &mut places);
            assert!(black_box(answer).is_ok());
        }
    })
}

/// The second implementation calculates so many times.
pub fn second(records: &[u8], times: usize) -> Duration {
    let [mut nums, mut dens, mut places] = [[0; 32]; 3];
    timed(|| {
        for _ in 0..times {
            let records = black_box(records);
            let answer = second::calculation::calculate(records, &mut nums, &mut dens, &mut places);
            assert!(black_box(answer).is_ok());
        }
    })
}
