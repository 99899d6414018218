//! What one record may write: the packets, and besides them one link with its entries or one source.
//! Everything else stays as it was, words that are not in use included.

use crate::difference::Difference;
use crate::words::{entry_at, link_at, source_at, Words, LINKS, SESSIONS};

/// Compares the words before and after one record that was taken.
pub fn compare(before: &Words, after: &Words, record: &[u8]) -> Result<(), Difference> {
    let changed =
        |from: usize, count: usize| before[from..from + count] != after[from..from + count];
    let links = (0..LINKS)
        .filter(|&link| changed(link_at(link), 3) || changed(entry_at(link, 0), 3 * SESSIONS));
    let links: Vec<usize> = links.collect();
    let sources: Vec<usize> = (0..SESSIONS)
        .filter(|&session| changed(source_at(session), 24))
        .collect();
    if links.len() + sources.len() <= 1 {
        return Ok(());
    }
    let what = "one record wrote more than one link or source";
    Err(Difference::new(
        what,
        record,
        (links, sources),
        "one of them",
    ))
}
