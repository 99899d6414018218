//! Two tables side by side, one of the proved library and one of `second`: every run goes to both,
//! and everything that can be seen of them is compared after it.

use second::machine::table::{Source, Table as Other};
use second::machine::{passes_14, run, settled};
use umbraconga::{Ran, Refused, Table, Told};

use crate::difference::{same, Difference};
use crate::tally::Tally;
use crate::words::{clear_unused, table_of, words_of, zeros, Words, SESSIONS};
use crate::writing::Output;
use crate::{fair, frame};

// Numbers that no session has.
const NO_SESSIONS: [u32; 4] = [32, 63, 255, u32::MAX];

/// The two tables, and how they came about.
pub struct Pair {
    start: Table,
    ours: Table,
    second: Other,
    taken: Vec<u8>,
}

impl Pair {
    /// Both empty.
    pub fn empty() -> Pair {
        Pair::handed(zeros())
    }

    /// Both with these words.
    pub fn handed(words: Box<Words>) -> Pair {
        let second = table_of(&words);
        let ours = Table::from_words(words);
        Pair {
            start: ours.clone(),
            ours,
            second,
            taken: Vec::new(),
        }
    }

    /// The library's words.
    pub fn words(&self) -> &Words {
        self.ours.words()
    }

    /// The table of `second`, from which the next events are chosen.
    pub fn second(&self) -> &Other {
        &self.second
    }

    /// The bytes of all the records that were taken.
    pub fn taken(&self) -> &[u8] {
        &self.taken
    }

    /// The records of the table, to be written on both sides.
    pub fn output(&self) -> Output<'_> {
        Output::of(&self.ours, &self.second)
    }

    /// Runs records on both tables and compares, also what is written of the tables after it.
    pub fn run(&mut self, records: &[u8], tally: &mut Tally) -> Result<Ran, Difference> {
        let before = self.ours.clone();
        let compared = self.run_from(&before, records, tally);
        let ran = compared.map_err(|difference| difference.with_table(before.words()))?;
        self.output().compare_some(tally)?;
        Ok(ran)
    }

    fn run_from(
        &mut self,
        before: &Table,
        records: &[u8],
        tally: &mut Tally,
    ) -> Result<Ran, Difference> {
        let ran = self.ours.run(records);
        let other = run(&mut self.second, records);
        let place_and_number = |refused: Refused| (refused.number, refused.place);
        let ours = (ran.taken, ran.refused.map(place_and_number));
        let refused = other.refused.map(|other| (other.number, other.place));
        same("a run's report", records, ours, (other.taken, refused))?;
        let number = ran.refused.map_or(0, |refused| refused.number);
        let end = ran.refused.map_or(records.len(), |at| at.place as usize);
        if ran.refused.is_some() {
            same_as_before(before, &self.ours, &records[..end], ran.taken)?;
        } else if ran.taken == 1 {
            frame::compare(before.words(), self.ours.words(), records)?;
        }
        // A table that is turned away has stayed as it was, word for word.
        if number == 14 {
            passes_14(&self.second).unwrap_or_else(|fault| tally.clause(fault));
        } else {
            self.same_in_use(records)?;
            self.taken.extend(&records[..end]);
        }
        self.same_answers(records, tally)?;
        tally.run(records, ran.taken, number);
        Ok(ran)
    }

    // All words that are in use are the same.
    fn same_in_use(&self, records: &[u8]) -> Result<(), Difference> {
        let mut ours = Box::new(*self.ours.words());
        clear_unused(&mut ours);
        same_words("the table in use", records, &ours, &words_of(&self.second))
    }

    // The settled question, the packets in flight, and what each session was told.
    fn same_answers(&self, records: &[u8], tally: &mut Tally) -> Result<(), Difference> {
        let ours = self.ours.settled();
        let ours_said = ours.map_err(|refused| (refused.number, refused.place));
        let second = settled(&self.second).map_err(|refused| (refused.number, refused.place));
        same("settled", records, ours_said, second)?;
        let in_flight = self.ours.in_flight();
        let told: Vec<Told> = (0..SESSIONS as u32)
            .chain(NO_SESSIONS)
            .map(|session| self.ours.told(session))
            .collect();
        // Of a table with a fault these two mean nothing; they only have to return.
        if ours.is_err() {
            return Ok(());
        }
        let packets = self.second.packets.len() as u64;
        same("packets in flight", records, in_flight, packets)?;
        let sources = self.second.sources.iter().map(told_to);
        let expected: Vec<Told> = sources.chain([Told::NotActive; 4]).collect();
        same("rates told", records, &told, &expected)?;
        if ours == Ok(true) {
            fair::compare(&self.second, &self.ours, tally)?;
        }
        Ok(())
    }

    /// Runs all the records taken once more from the start, cut at these places between records, and
    /// demands the same words, those that are not in use included.
    pub fn again(&self, cuts: &[usize], tally: &mut Tally) -> Result<(), Difference> {
        let mut again = Pair::handed(Box::new(*self.start.words()));
        let mut from = 0;
        for &cut in cuts.iter().chain([&self.taken.len()]) {
            let piece = &self.taken[from..cut];
            let refused = again.run(piece, tally)?.refused;
            same("the same records run again", piece, refused, None)?;
            from = cut;
        }
        let what = "the words after the same records in other calls";
        same_words(what, &self.taken, again.words(), self.words())
    }
}

// After a refusal all words are as the records before the refused one, run apart, leave them.
fn same_as_before(
    before: &Table,
    after: &Table,
    accepted: &[u8],
    taken: u64,
) -> Result<(), Difference> {
    let mut apart = before.clone();
    if taken > 0 {
        let ran = apart.run(accepted);
        let all = Ran {
            taken,
            refused: None,
        };
        same("the records taken, run apart", accepted, ran, all)?;
    }
    let what = "all words after a refusal, and after the records before it";
    same_words(what, accepted, after.words(), apart.words())
}

fn same_words(what: &str, records: &[u8], ours: &Words, second: &Words) -> Result<(), Difference> {
    if ours == second {
        return Ok(());
    }
    let differing = |words: &Words| -> Vec<String> {
        (0..words.len())
            .filter(|&place| ours[place] != second[place])
            .map(|place| format!("{place}:{}", words[place]))
            .collect()
    };
    let (ours, second) = (differing(ours), differing(second));
    Err(Difference::new(what, records, ours, second))
}

fn told_to(source: &Source) -> Told {
    match (source.is_active(), source.told) {
        (false, _) => Told::NotActive,
        (true, 0) => Told::None,
        (true, _) => Told::Rate {
            num: source.told_num,
            den: source.told_den,
        },
    }
}
