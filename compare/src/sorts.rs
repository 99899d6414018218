//! The sorts of input that are compared, and how many cases of each.

use std::any::Any;
use std::panic::{catch_unwind, AssertUnwindSafe};

use crate::difference::Difference;
use crate::random::Random;
use crate::tally::Tally;
use crate::{
    above, bottleneck, built, crowded, damage, faults, nearly, networks, odd, present, purpose,
    recorded, runs, slices,
};

/// One sort: its name, how many cases it has, and what one case does.
pub struct Sort {
    /// As it is printed.
    pub name: &'static str,
    /// How many cases of it a seed has.
    pub cases: u64,
    check: fn(&mut Random, &mut Tally) -> Result<(), Difference>,
}

const fn sort(
    name: &'static str,
    cases: u64,
    check: fn(&mut Random, &mut Tally) -> Result<(), Difference>,
) -> Sort {
    Sort { name, cases, check }
}

/// The cases that are the same in every run of the program.
pub const FIXED: [Sort; 12] = [
    sort("calculations, recorded", 1, recorded::calculations),
    sort(
        "calculations, slices of every length",
        1,
        slices::every_length,
    ),
    sort(
        "calculations, 16 on purpose",
        1,
        above::calculations_on_purpose,
    ),
    sort(
        "calculations, binding places on purpose",
        1,
        bottleneck::on_purpose,
    ),
    sort("runs, recorded", 1, recorded::runs),
    sort(
        "runs, each refusal 1 to 13 on purpose",
        1,
        purpose::every_refusal,
    ),
    sort("runs, 16 on purpose", 1, above::runs_on_purpose),
    sort(
        "handed tables, each clause of 14 on purpose",
        1,
        faults::every_clause,
    ),
    sort("handed tables, word by word", 1, faults::every_word),
    sort(
        "handed tables that no run reaches, on purpose",
        1,
        odd::odd_tables,
    ),
    sort("records written out, recorded", 1, recorded::outputs),
    sort("records written out, on purpose", 1, present::on_purpose),
];

/// The cases that go by a seed.
pub const RANDOM: [Sort; 17] = [
    sort("calculations, accepted", 35_000, networks::valid),
    sort("calculations, damaged", 35_000, networks::damaged),
    sort("calculations, cut off", 20_000, networks::cut),
    sort(
        "calculations, around 32,768 bytes",
        1_000,
        networks::too_long,
    ),
    sort("calculations, any bytes", 20_000, networks::any_bytes),
    sort(
        "calculations, a maximum above an access rate",
        10_000,
        above::networks,
    ),
    sort(
        "calculations, narrow links and fully used ones",
        10_000,
        bottleneck::networks,
    ),
    sort(
        "calculations, slices of random lengths",
        15_000,
        networks::lent,
    ),
    sort("runs, one record a call", 300, runs::one_record_a_call),
    sort("runs, many records a call", 500, runs::many_records_a_call),
    sort("runs, around 32,768 bytes", 100, runs::too_long),
    sort("runs, with the list nearly full", 60, crowded::crowded),
    sort("handed tables, reached and damaged", 2_000, damage::damaged),
    sort(
        "handed tables, unused words filled",
        250,
        damage::unused_filled,
    ),
    sort("handed tables, built", 4_000, built::built),
    sort("handed tables, nearly settled", 300, nearly::nearly_settled),
    sort("records written out, of networks", 1_000, present::networks),
];

impl Sort {
    /// Runs one case. A side that panics differs too.
    pub fn run(
        &self,
        seed: u64,
        sort: u64,
        case: u64,
        tally: &mut Tally,
    ) -> Result<(), Difference> {
        tally.now(self.name);
        let mut random = Random::of_case(seed, sort, case);
        let compared = catch_unwind(AssertUnwindSafe(|| (self.check)(&mut random, tally)));
        let differs = match compared {
            Ok(Ok(())) => return Ok(()),
            Ok(Err(difference)) => difference,
            Err(panic) => Difference::new("a side panicked", &[], said(&panic), "an answer"),
        };
        Err(differs.in_case(&format!("{}, seed {seed}, case {case}", self.name)))
    }
}

// What a panic said, where it said it in words.
fn said(panic: &Box<dyn Any + Send>) -> String {
    let words = panic.downcast_ref::<String>().cloned();
    let words = words.or_else(|| panic.downcast_ref::<&str>().map(|words| words.to_string()));
    words.unwrap_or_default()
}
