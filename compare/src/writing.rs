//! The records of a table written out (02, §3), on both sides: the answer, and the lent slice in full;
//! and what was written, read back.

use std::fmt::Debug;

use second::machine::table::{Table as Other, YES};
use second::machine::{run, write};
use umbraconga::{Ran, Refused, Table, RECORDS_MOST};

use crate::calculation::{by_library, by_second};
use crate::difference::{same, Difference};
use crate::fair::records_of;
use crate::outputs;
use crate::random::Random;
use crate::runs::record_ends;
use crate::tally::Tally;
use crate::words::SESSIONS;

/// What the writer answers, in one form for both sides: how many bytes it wrote, or the number and place
/// of the refusal.
pub type Answer = Result<u64, (u64, u64)>;

// No byte of a kind, a link, a session, a path or its length.
const AFTER: u8 = 0xaa;

/// One table on both sides, whose records are written.
pub struct Output<'a> {
    ours: &'a Table,
    second: &'a Other,
    // What the second implementation writes where there is room for all; nothing of a table with a fault.
    bytes: Option<Vec<u8>>,
}

impl<'a> Output<'a> {
    /// Of these two, which are the same table.
    pub fn of(ours: &'a Table, second: &'a Other) -> Output<'a> {
        Output {
            ours,
            second,
            bytes: bytes_of(second),
        }
    }

    /// What is compared after every run: a slice of exactly the output's length, one byte less, longer,
    /// empty, of the most bytes there can be, or of any length; some of what was written is read back. The
    /// choice goes by the table's words, so that a case made again has the same.
    pub fn compare_some(&self, tally: &mut Tally) -> Result<(), Difference> {
        let mut random = Random::of_words(self.ours.words());
        let size = self.size();
        let length = match random.under(8) {
            0 | 1 => size,
            2 | 3 => size.saturating_sub(1),
            4 => size + random.between(1, 40),
            5 => 0,
            6 => RECORDS_MOST,
            _ => random.under(RECORDS_MOST + 40),
        };
        let answer = self.compare(length, tally)?;
        if answer.is_ok() && random.chance(10) {
            self.read_back(tally)?;
        }
        Ok(())
    }

    /// Compares what is written into a slice of this length, and returns the answer.
    pub fn compare(&self, length: usize, tally: &mut Tally) -> Result<Answer, Difference> {
        let before = self.filled(length);
        let (ours, ours_after) = written_by_library(self.ours, before.clone());
        let (second, second_after) = written_by_second(self.second, before.clone());
        let what = |part: &str| format!("{part}, on a slice of {length} bytes");
        self.same(&what("the writer's answer"), ours, second)?;
        self.same(&what("the slice written"), &ours_after, &second_after)?;
        if ours.is_err() {
            self.same(&what("the slice after a refusal"), &ours_after, &before)?;
        }
        let number = ours.err().map_or(0, |(number, _)| number);
        tally.written(number, outputs::met(self.second, self.size(), length, ours));
        Ok(ours)
    }

    /// Compares that these bytes are the output, and reads them back.
    pub fn is(&self, bytes: &[u8], tally: &mut Tally) -> Result<(), Difference> {
        let (ours, meant) = (self.ours.records(), Ok(bytes.to_vec()));
        self.same("the output that was meant", ours, meant)?;
        self.read_back(tally)
    }

    /// Reads back what was written of a table without a fault: it has the table's links and active sessions,
    /// both machines take it on an empty table and write it again, and both calculations accept it with the
    /// same rates and places.
    pub fn read_back(&self, tally: &mut Tally) -> Result<(), Difference> {
        let Some(bytes) = &self.bytes else {
            return Ok(());
        };
        let owned = self.ours.records();
        self.same("the form that returns the bytes", owned, Ok(bytes.clone()))?;
        let records = records_of(self.second);
        self.same("the table's links and active sessions", bytes, &records)?;
        run_again(bytes)?;
        calculated(bytes)?;
        tally.read_back();
        Ok(())
    }

    // How many bytes there are to write, also of a table with a fault: 6 for each declared link, 19 for
    // each active session.
    fn size(&self) -> usize {
        let links = self.second.links.iter();
        let sessions = self.second.sources.iter();
        6 * links.filter(|link| link.declared == YES).count()
            + 19 * sessions.filter(|source| source.is_active()).count()
    }

    // A slice in which every byte of the output is another one than is written there, so that a byte left
    // out shows as one written too many does.
    fn filled(&self, length: usize) -> Vec<u8> {
        let mut slice = vec![AFTER; length];
        for (place, byte) in slice.iter_mut().zip(self.bytes.iter().flatten()) {
            *place = !byte;
        }
        slice
    }

    // A difference shows the whole output, as records, and the table.
    fn same<T: Debug + PartialEq>(&self, what: &str, ours: T, second: T) -> Result<(), Difference> {
        let bytes = self.bytes.as_deref().unwrap_or_default();
        same(what, bytes, ours, second)
            .map_err(|difference| difference.with_table(self.ours.words()))
    }
}

fn written_by_library(table: &Table, mut slice: Vec<u8>) -> (Answer, Vec<u8>) {
    let answer = table.write_records(&mut slice);
    let answer = answer
        .map(|count| count as u64)
        .map_err(|Refused { number, place }| (number, place));
    (answer, slice)
}

fn written_by_second(table: &Other, mut slice: Vec<u8>) -> (Answer, Vec<u8>) {
    let answer = write(table, &mut slice);
    let answer = answer.map_err(|refused| (refused.number, refused.place));
    (answer, slice)
}

// What the second implementation writes where there is room for all.
fn bytes_of(table: &Other) -> Option<Vec<u8>> {
    let (answer, mut slice) = written_by_second(table, vec![AFTER; RECORDS_MOST]);
    slice.truncate(answer.ok()? as usize);
    Some(slice)
}

// Both machines take these records on an empty table, all of them, and then write them.
fn run_again(bytes: &[u8]) -> Result<(), Difference> {
    let all = Ran {
        taken: record_ends(bytes).len() as u64,
        refused: None,
    };
    let mut ours = Table::empty();
    same("a run of what was written", bytes, ours.run(bytes), all)?;
    let written = ours.records();
    let what = "what is written of the table read back";
    same(what, bytes, written, Ok(bytes.to_vec()))?;
    let mut second = Other::empty();
    let ran = run(&mut second, bytes);
    let ran = (ran.taken, ran.refused.is_some());
    same(
        "second's run of what was written",
        bytes,
        (all.taken, false),
        ran,
    )?;
    let what = "what second writes of the table read back";
    same(what, bytes, Some(bytes), bytes_of(&second).as_deref())
}

// Both calculations accept these records, with the same rates and places.
fn calculated(bytes: &[u8]) -> Result<(), Difference> {
    let slices = || [(); 3].map(|()| vec![0; SESSIONS]);
    let (answer, ours) = by_library(bytes, slices());
    let what = "the calculation of what was written";
    same(what, bytes, &(answer, ours), &by_second(bytes, slices()))?;
    same("it is accepted", bytes, answer.err(), None)
}
