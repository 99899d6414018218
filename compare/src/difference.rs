//! Where the two sides differ: what was compared, the input, and both answers.

use std::fmt::{self, Debug, Write};

/// One difference, as a text that is enough to make it again.
#[derive(Debug)]
pub struct Difference(String);

impl Difference {
    /// What differs on which records, with the answers of the proved library and of the other side.
    pub fn new(what: &str, records: &[u8], ours: impl Debug, second: impl Debug) -> Difference {
        Difference(format!(
            "{what}\n  records: {}\n  library: {ours:?}\n  second:  {second:?}",
            hex(records)
        ))
    }

    /// The same with the table before the run: its words that are not 0, each with its place.
    pub fn with_table(self, words: &[u64]) -> Difference {
        let set = words.iter().enumerate().filter(|(_, &word)| word != 0);
        let text = set.fold(String::new(), |text, (place, word)| {
            format!("{text} {place}:{word}")
        });
        Difference(format!("{}\n  table before:{text}", self.0))
    }

    /// The same with the case that found it.
    pub fn in_case(self, case: &str) -> Difference {
        Difference(format!("{case}: {}", self.0))
    }
}

impl fmt::Display for Difference {
    fn fmt(&self, f: &mut fmt::Formatter<'_>) -> fmt::Result {
        f.write_str(&self.0)
    }
}

/// Ok where the two answers are equal, else the difference.
pub fn same<T: Debug + PartialEq>(
    what: &str,
    records: &[u8],
    ours: T,
    second: T,
) -> Result<(), Difference> {
    if ours == second {
        Ok(())
    } else {
        Err(Difference::new(what, records, ours, second))
    }
}

// Two digits for each byte.
fn hex(bytes: &[u8]) -> String {
    bytes.iter().fold(String::new(), |mut text, byte| {
        write!(text, "{byte:02x}").expect("writing to a string does not fail");
        text
    })
}
