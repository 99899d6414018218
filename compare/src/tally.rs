//! How much was compared, and which refusals, clauses of 14 and cases of the binding place and of the
//! writer were met.

use std::collections::BTreeMap;
use std::fmt;

use second::machine::Fault;

use second::making::record_bytes;

use crate::{outputs, places};

/// The clauses of refusal 14 in the order of its sentence, and the one that 02, §1 adds.
const CLAUSES: [Fault; 12] = [
    Fault::FieldOutsideRange,
    Fault::RateNotInLowestTerms,
    Fault::PathOverUndeclaredLink,
    Fault::PathOverLinkTwice,
    Fault::PacketOffItsPath,
    Fault::PacketGoingTheWrongWay,
    Fault::SessionInBothSets,
    Fault::EntryOffItsPath,
    Fault::EntryOfAGoneSession,
    Fault::SumPastCapacity,
    Fault::SumsTooFine,
    Fault::MaximumAboveAccess,
];

/// The refusals are numbered from 1; in place 0 is counted what was accepted.
const REFUSALS: usize = 18;

/// The records in which the machine can meet 16 (02, §1), with their kinds.
const WITH_MAXIMUM: [(u8, &str); 2] = [(2, "a session record"), (4, "a change")];

/// The kinds of records.
const KINDS: [&str; 5] = ["links", "joins", "leaves", "changes", "deliveries"];

/// The counts of one part of the work; parts are added up.
#[derive(Default)]
pub struct Tally {
    /// Calls compared, by sort of input.
    calls: BTreeMap<&'static str, u64>,
    /// Records that both sides took, by kind.
    records: [u64; KINDS.len()],
    /// Inputs without a byte.
    empty: u64,
    /// Tables compared in all their words that are in use.
    tables: u64,
    /// Settled tables whose rates told were compared with the calculation, and their sessions.
    settled: u64,
    sessions: u64,
    /// How often the calculation met each refusal.
    by_calculation: [u64; REFUSALS],
    /// How often the machine did.
    by_machine: [u64; REFUSALS],
    /// And how often the writer.
    by_writer: [u64; REFUSALS],
    /// How often the machine met 16 in each record that has a maximum.
    above: [u64; WITH_MAXIMUM.len()],
    clauses: [u64; CLAUSES.len()],
    /// How many sessions of accepted calculations met each case of the binding place (02, §2).
    places: places::Met,
    /// How many calls of the writer met each of its cases (02, §3), and how many outputs were read back.
    outputs: outputs::Met,
    read_back: u64,
    // The sort under which calls are counted now.
    sort: &'static str,
}

impl Tally {
    /// Counts the calls that follow under this sort.
    pub fn now(&mut self, sort: &'static str) {
        self.sort = sort;
    }

    /// A calculation of these records was compared; 0 where it was accepted.
    pub fn calculation(&mut self, records: &[u8], refusal: u64) {
        self.empty += u64::from(records.is_empty());
        *self.calls.entry(self.sort).or_default() += 1;
        self.by_calculation[refusal as usize] += 1;
    }

    /// The sessions of an accepted calculation that was compared met these cases of the binding place.
    pub fn places(&mut self, met: places::Met) {
        add_each(&mut self.places, &met);
    }

    /// A run of these records was compared, and its table unless it was turned away; 0 where it was
    /// accepted.
    pub fn run(&mut self, records: &[u8], taken: u64, refusal: u64) {
        *self.calls.entry(self.sort).or_default() += 1;
        self.empty += u64::from(records.is_empty());
        let mut place = 0;
        for _ in 0..taken {
            let kind = records[place];
            self.records[usize::from(kind) - 1] += 1;
            place += record_bytes(kind);
        }
        self.tables += u64::from(refusal != 14);
        self.by_machine[refusal as usize] += 1;
        for ((kind, _), count) in WITH_MAXIMUM.iter().zip(&mut self.above) {
            *count += u64::from(refusal == 16 && records[place] == *kind);
        }
    }

    /// A call of the writer was compared, which met these of its cases; 0 where it was accepted.
    pub fn written(&mut self, refusal: u64, met: outputs::Met) {
        *self.calls.entry(self.sort).or_default() += 1;
        self.by_writer[refusal as usize] += 1;
        add_each(&mut self.outputs, &met);
    }

    /// What was written of a table was read back.
    pub fn read_back(&mut self) {
        self.read_back += 1;
    }

    /// A settled table's rates were compared with the calculation.
    pub fn settled(&mut self, sessions: u64) {
        self.settled += 1;
        self.sessions += sessions;
    }

    /// A handed table failed this clause of 14.
    pub fn clause(&mut self, fault: Fault) {
        for (clause, count) in CLAUSES.iter().zip(&mut self.clauses) {
            *count += u64::from(*clause == fault);
        }
    }

    /// Adds the counts of another part.
    pub fn add(&mut self, other: &Tally) {
        for (sort, calls) in &other.calls {
            *self.calls.entry(sort).or_default() += calls;
        }
        add_each(&mut self.records, &other.records);
        self.empty += other.empty;
        self.tables += other.tables;
        self.settled += other.settled;
        self.sessions += other.sessions;
        add_each(&mut self.by_calculation, &other.by_calculation);
        add_each(&mut self.by_machine, &other.by_machine);
        add_each(&mut self.by_writer, &other.by_writer);
        add_each(&mut self.above, &other.above);
        add_each(&mut self.clauses, &other.clauses);
        add_each(&mut self.places, &other.places);
        add_each(&mut self.outputs, &other.outputs);
        self.read_back += other.read_back;
    }

    /// All calls compared.
    pub fn calls(&self) -> u64 {
        self.calls.values().sum()
    }

    /// The refusals, clauses and cases that should have been met and were not: the calculation can meet 1 to
    /// 8, 15 and 16, the machine 1 to 14 and 16, the latter in a session record and in a change, and the
    /// writer 14 and 17.
    pub fn not_met(&self) -> Vec<String> {
        let calculation: Vec<usize> = (1..=8).chain([15, 16]).collect();
        let machine: Vec<usize> = (1..=14).chain([16]).collect();
        let refusals = [
            (&calculation[..], &self.by_calculation, "a calculation"),
            (&machine, &self.by_machine, "a run"),
            (&[14, 17], &self.by_writer, "the writer"),
        ];
        let refusals = refusals.into_iter().flat_map(|(numbers, counts, by)| {
            let missing = numbers.iter().filter(|&&number| counts[number] == 0);
            missing.map(move |number| format!("refusal {number} of {by}"))
        });
        let above = zeros(&WITH_MAXIMUM, &self.above)
            .map(|(_, record)| format!("refusal 16 of {record} in a run"));
        let clauses =
            zeros(&CLAUSES, &self.clauses).map(|clause| format!("clause {clause:?} of 14"));
        let places = zeros(&places::CASES, &self.places).map(|case| case.to_string());
        let outputs = zeros(&outputs::CASES, &self.outputs).map(|case| case.to_string());
        let read_back = (self.read_back == 0).then(|| "output read back".to_string());
        refusals
            .chain(above)
            .chain(clauses)
            .chain(places)
            .chain(outputs)
            .chain(read_back)
            .collect()
    }
}

// Those whose count is 0.
fn zeros<'a, T>(named: &'a [T], counts: &'a [u64]) -> impl Iterator<Item = &'a T> {
    let pairs = named.iter().zip(counts);
    pairs.filter(|(_, &count)| count == 0).map(|(one, _)| one)
}

fn add_each(counts: &mut [u64], others: &[u64]) {
    for (count, other) in counts.iter_mut().zip(others) {
        *count += other;
    }
}

impl fmt::Display for Tally {
    fn fmt(&self, f: &mut fmt::Formatter<'_>) -> fmt::Result {
        for (sort, calls) in &self.calls {
            writeln!(f, "{calls:>9} {sort}")?;
        }
        writeln!(f, "{:>9} calls in all", self.calls())?;
        writeln!(
            f,
            "{:>9} of them on empty inputs, {} tables compared",
            self.empty, self.tables
        )?;
        for (kind, taken) in KINDS.iter().zip(&self.records) {
            writeln!(f, "{taken:>9} {kind} taken by the machine")?;
        }
        writeln!(
            f,
            "{:>9} settled tables, {} sessions in them told the calculation's rate",
            self.settled, self.sessions
        )?;
        writeln!(
            f,
            "refusal    1 to 17, by calculations, by runs and by the writer; 0 is accepted"
        )?;
        for number in 0..REFUSALS {
            let (calculations, runs) = (self.by_calculation[number], self.by_machine[number]);
            let written = self.by_writer[number];
            writeln!(f, "{number:>9} {calculations:>9} {runs:>9} {written:>9}")?;
        }
        for ((_, record), count) in WITH_MAXIMUM.iter().zip(&self.above) {
            writeln!(
                f,
                "{count:>9} runs met 16, a maximum above the access rate, in {record}"
            )?;
        }
        writeln!(f, "clauses of 14")?;
        for (clause, count) in CLAUSES.iter().zip(&self.clauses) {
            writeln!(f, "{count:>9} {clause:?}")?;
        }
        writeln!(f, "binding places, by sessions of accepted calculations")?;
        for (case, count) in places::CASES.iter().zip(&self.places) {
            writeln!(f, "{count:>9} {case}")?;
        }
        let written: u64 = self.by_writer.iter().sum();
        writeln!(f, "records written out, by {written} calls of the writer")?;
        for (case, count) in outputs::CASES.iter().zip(&self.outputs) {
            writeln!(f, "{count:>9} {case}")?;
        }
        writeln!(f, "{:>9} outputs read back", self.read_back)
    }
}

#[cfg(test)]
mod tests {
    use super::{outputs, Tally};

    #[test]
    fn where_nothing_was_met_all_is_missing() {
        let missing = Tally::default().not_met();
        // Refusals of a calculation, of a run, of the writer, and 16 of two records; clauses; cases.
        assert_eq!(missing.len(), 10 + 15 + 2 + 2 + 12 + 5 + 12 + 1);
        let writer = "refusal 17 of the writer".to_string();
        assert!(missing.contains(&writer));
        let mut tally = Tally::default();
        tally.written(17, [1; outputs::CASES.len()]);
        tally.read_back();
        let fewer = tally.not_met();
        assert!(!fewer.contains(&writer));
        assert_eq!(fewer.len(), missing.len() - 1 - 12 - 1);
    }
}
