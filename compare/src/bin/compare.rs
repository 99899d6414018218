//! Compares the proved library with the second implementation on recorded, built and random inputs.
//! The random ones are made from two seeds: one that is always the same, and one from the clock, which
//! is printed and can be given on the command line instead. Prints what was compared and met; exits
//! with 1 where the sides differ, or a refusal or a case of the binding place or of the writer was never
//! met.

use std::env;
use std::process::ExitCode;
use std::sync::atomic::{AtomicUsize, Ordering};
use std::thread;
use std::time::{Instant, SystemTime, UNIX_EPOCH};

use compare::difference::Difference;
use compare::sorts::{Sort, FIXED, RANDOM};
use compare::tally::Tally;

const CONSTANT_SEED: u64 = 1;
// After so many differences the rest of the work is not done.
const MOST_DIFFERENCES: usize = 5;

// One case: which sort, from which seed.
struct Case {
    sort: &'static Sort,
    number: u64,
    seed: u64,
    case: u64,
}

fn main() -> ExitCode {
    let fresh = match env::args().nth(1).map(|given| given.parse()) {
        None => seed_from_clock(),
        Some(Ok(seed)) => seed,
        Some(Err(_)) => {
            eprintln!("usage: compare [SEED], a whole number");
            return ExitCode::from(2);
        }
    };
    println!("seeds {CONSTANT_SEED} and {fresh}");
    let start = Instant::now();
    let (tally, differences) = run(&cases(fresh));
    print!("{tally}");
    println!("{:.1} seconds", start.elapsed().as_secs_f64());
    for difference in &differences {
        println!("DIFFERENT: {difference}");
    }
    let not_met = tally.not_met();
    for missing in &not_met {
        println!("NEVER MET: {missing}");
    }
    if differences.is_empty() && not_met.is_empty() {
        println!("{} calls compared, no difference", tally.calls());
        ExitCode::SUCCESS
    } else {
        ExitCode::FAILURE
    }
}

fn seed_from_clock() -> u64 {
    let since = SystemTime::now().duration_since(UNIX_EPOCH);
    // A clock before 1970 gives no seed of its own.
    since.map_or(2, |since| since.as_nanos() as u64)
}

// All cases. The few long ones of the fixed part come first, so that the threads end together.
fn cases(fresh: u64) -> Vec<Case> {
    let mut cases = Vec::new();
    for (number, sort) in (0..).zip(FIXED.iter()) {
        cases.extend((0..sort.cases).map(|case| Case {
            sort,
            number,
            seed: CONSTANT_SEED,
            case,
        }));
    }
    for (number, sort) in (100..).zip(RANDOM.iter()) {
        for seed in [CONSTANT_SEED, fresh] {
            cases.extend((0..sort.cases).map(|case| Case {
                sort,
                number,
                seed,
                case,
            }));
        }
    }
    cases
}

// One thread for each core; each takes the next cases that nobody has taken.
fn run(cases: &[Case]) -> (Tally, Vec<Difference>) {
    let next = AtomicUsize::new(0);
    let threads = thread::available_parallelism().map_or(1, |count| count.get());
    thread::scope(|scope| {
        let workers: Vec<_> = (0..threads)
            .map(|_| scope.spawn(|| work(cases, &next)))
            .collect();
        let mut tally = Tally::default();
        let mut differences = Vec::new();
        for worker in workers {
            let (part, found) = worker.join().expect("a case that panics is caught");
            tally.add(&part);
            differences.extend(found);
        }
        (tally, differences)
    })
}

fn work(cases: &[Case], next: &AtomicUsize) -> (Tally, Vec<Difference>) {
    let mut tally = Tally::default();
    let mut differences = Vec::new();
    while differences.len() < MOST_DIFFERENCES {
        let Some(case) = cases.get(next.fetch_add(1, Ordering::Relaxed)) else {
            break;
        };
        let compared = case.sort.run(case.seed, case.number, case.case, &mut tally);
        differences.extend(compared.err());
    }
    (tally, differences)
}
