//! The packet machine: a table of words, and runs of records over it.

use std::fmt;

use crate::{raw, Refused, RECORDS_MOST, SESSIONS, TABLE_WORDS};

/// The machine's table. It owns its words, whose layout is:
///
/// | from | what |
/// |---|---|
/// | 0 | 64 links of 3 words: capacity (0: not declared), the words of R and F, bit s for session s |
/// | 192 | 64 times 32 entries of 3 words, link by link: state (0 idle, 1 waiting for a probe, 2 waiting for a response), numerator and denominator of the rate |
/// | 6336 | 32 sources of 24 words: active, access rate, maximum (0: none, else at most the access rate), whether the source's own F holds the session, state, whether an update was noted, whether a bottleneck was, whether a rate was told; numerator and denominator of the rate, then of the rate told; the length of the path (0: never joined), three words that are not used, the 8 links of the path |
/// | 7104 | 256 packets of 8 words: session, hop, 1 for downstream, kind (0 Join, 1 Probe, 2 Response, 3 Update, 4 Bottleneck, 5 SetBottleneck, 6 Leave), numerator, denominator, the link that imposed the rate (64: the source's own line), and what a Response (0 RESPONSE, 1 UPDATE, 2 BOTTLENECK) or SetBottleneck (1 with a bottleneck) says |
/// | 9152 | how many packets are in flight |
///
/// An entry is in use where its session is in R or F, a source where its session has joined (its words
/// `active` and length of the path always are), a place of the path below its length, the rate told
/// where one was, a packet below the count, and of it the words that its kind carries. Words that are
/// not in use may hold anything; a run may change them.
#[derive(Clone)]
pub struct Table {
    words: Box<raw::Words>,
}

/// What a run reports.
#[derive(Clone, Copy, Debug, PartialEq, Eq)]
pub struct Ran {
    /// How many records were taken.
    pub taken: u64,
    /// Why the record after them was not; none where all were taken.
    pub refused: Option<Refused>,
}

/// What a session was last told.
#[derive(Clone, Copy, Debug, PartialEq, Eq)]
pub enum Told {
    /// The session is not active.
    NotActive,
    /// No rate has been told since the session joined.
    None,
    /// The rate last told, `num / den` kbit/s in lowest terms.
    Rate {
        /// The numerator.
        num: u64,
        /// The denominator, at least 1.
        den: u64,
    },
}

impl Table {
    /// The empty table: no link declared, no session ever joined, no packet in flight.
    pub fn empty() -> Table {
        let mut table = Table { words: zeros() };
        table.make_empty();
        table
    }

    /// A table with these words, whatever they are. [`run`](Table::run), [`settled`](Table::settled),
    /// [`records`](Table::records) and [`write_records`](Table::write_records) refuse 14 where they
    /// have a fault.
    pub fn from_words(words: Box<[u64; TABLE_WORDS]>) -> Table {
        Table { words }
    }

    /// The words.
    pub fn words(&self) -> &[u64; TABLE_WORDS] {
        &self.words
    }

    /// The words, for the caller to keep.
    pub fn into_words(self) -> Box<[u64; TABLE_WORDS]> {
        self.words
    }

    /// Makes this table the empty one.
    pub fn make_empty(&mut self) {
        raw::empty(&mut self.words);
    }

    /// Runs records from the left, up to the end or the first that is refused. The table is then the
    /// one after the records taken.
    #[must_use = "a record may have been refused"]
    pub fn run(&mut self, records: &[u8]) -> Ran {
        let [number, place, taken] = raw::run(&mut self.words, records);
        Ran {
            taken,
            refused: Refused::of(number, place),
        }
    }

    /// Whether the table is settled, by the specification's five conditions. In a table that runs
    /// reached from the empty one, every active session has then been told its max-min fair rate. A
    /// table with a fault is refused 14.
    pub fn settled(&self) -> Result<bool, Refused> {
        match raw::settled(&self.words) {
            0 => Ok(false),
            1 => Ok(true),
            number => Err(Refused { number, place: 0 }),
        }
    }

    /// How many packets are in flight. Of a table that is refused 14 this means nothing.
    pub fn in_flight(&self) -> u64 {
        raw::in_flight(&self.words)
    }

    /// What a session was last told. No session has a number over 31. Of a table that is refused 14
    /// this means nothing.
    pub fn told(&self, session: u32) -> Told {
        let [active, num, den] = raw::told(&self.words, session);
        match (active, den) {
            (0, _) => Told::NotActive,
            (_, 0) => Told::None,
            _ => Told::Rate { num, den },
        }
    }

    /// The table's links and active sessions as records, to load them elsewhere: the links (kind 1),
    /// then the active sessions (kind 2), both by rising number, each session with its access rate,
    /// its present maximum and its path. Sessions that are leaving are not among them, and packets and
    /// states are not kept. A table with a fault is refused 14.
    ///
    /// ```
    /// use umbraconga::{calculate, Table};
    ///
    /// let mut table = Table::empty();
    /// let ran = table.run(&[
    ///     1, 0, 0, 0, 0, 10, // link 0 carries 10 kbit/s
    ///     2, 0, 0, 0, 0, 100, 0, 0, 0, 0, // session 0: an access line of 100 kbit/s, no maximum
    ///     1, 0, 255, 255, 255, 255, 255, 255, 255, // and a path of one link, link 0
    ///     4, 0, 0, 0, 0, 4, // it has a maximum of 4 kbit/s from now on
    /// ]);
    /// assert_eq!(ran.refused, None);
    /// let records = table.records()?;
    /// assert_eq!(calculate(&records)?.to_string(), "links 1 sessions 1\n0 4/1 own");
    /// let mut elsewhere = Table::empty();
    /// assert_eq!(elsewhere.run(&records).refused, None);
    /// assert_eq!(elsewhere.records()?, records);
    /// # Ok::<(), umbraconga::Refused>(())
    /// ```
    pub fn records(&self) -> Result<Vec<u8>, Refused> {
        let mut out = vec![0; RECORDS_MOST];
        let count = self.write_records(&mut out)?;
        out.truncate(count);
        Ok(out)
    }

    /// Writes the records of [`records`](Table::records) to the front of a lent slice, and says how many
    /// bytes they take; the bytes after them stay as they were, and so do all where the call is
    /// refused. A table with a fault is refused 14, then a slice that is shorter than the output 17:
    /// one of the output's length is long enough, and one of [`RECORDS_MOST`] bytes always is.
    pub fn write_records(&self, out: &mut [u8]) -> Result<usize, Refused> {
        let [number, place, count] = raw::records(&self.words, out);
        match Refused::of(number, place) {
            Some(refused) => Err(refused),
            // No more than the slice has.
            None => Ok(count as usize),
        }
    }
}

// On the heap from the start: the words are too many for a small stack.
fn zeros() -> Box<raw::Words> {
    let words = vec![0; TABLE_WORDS].into_boxed_slice();
    words.try_into().expect("it has the length of a table")
}

impl Default for Table {
    fn default() -> Table {
        Table::empty()
    }
}

/// The lines of the program `steps`, without the count of records.
impl fmt::Display for Table {
    fn fmt(&self, f: &mut fmt::Formatter<'_>) -> fmt::Result {
        let settled = match self.settled() {
            Ok(true) => "yes",
            _ => "no",
        };
        write!(f, "packets {} settled {settled}", self.in_flight())?;
        (0..SESSIONS as u32)
            .map(|session| (session, self.told(session)))
            .filter(|(_, told)| *told != Told::NotActive)
            .try_for_each(|(session, told)| write!(f, "\n{session} {told}"))
    }
}

impl fmt::Debug for Table {
    fn fmt(&self, f: &mut fmt::Formatter<'_>) -> fmt::Result {
        let active = (0..SESSIONS as u32).filter(|&session| self.told(session) != Told::NotActive);
        f.debug_struct("Table")
            .field("settled", &self.settled())
            .field("in_flight", &self.in_flight())
            .field("active", &active.collect::<Vec<_>>())
            .finish_non_exhaustive()
    }
}

/// `taken N`, and the refusal, if any.
impl fmt::Display for Ran {
    fn fmt(&self, f: &mut fmt::Formatter<'_>) -> fmt::Result {
        write!(f, "taken {}", self.taken)?;
        match self.refused {
            Some(refused) => write!(f, ", {refused}"),
            None => Ok(()),
        }
    }
}

/// The rate, `none`, or `not active`.
impl fmt::Display for Told {
    fn fmt(&self, f: &mut fmt::Formatter<'_>) -> fmt::Result {
        match self {
            Told::NotActive => f.write_str("not active"),
            Told::None => f.write_str("none"),
            Told::Rate { num, den } => write!(f, "{num}/{den}"),
        }
    }
}
