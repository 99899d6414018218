//! The library beside the second implementation, and on the same inputs in the same rounds beside
//! SimGrid's solver, which calculates and has no machine.

use super::machine::{self, Loads};
use super::markdown::{a_second, ratio, table, time};
use super::peer::{self, heads, Peer, Times};
use super::{library, lowest, microseconds, second};
use crate::loads::{network, P6};

// Rounds of a pass.
const ROUNDS: usize = 12;

/// The lowest times of one piece of work, in microseconds.
pub struct Row {
    /// What is timed.
    pub name: &'static str,
    /// The library: parts that are timed by themselves and add up to the time of one piece.
    pub library: Vec<f64>,
    /// The second implementation, in the same parts.
    pub second: Vec<f64>,
    /// SimGrid's solver, of the calculations, where it is there.
    pub peer: Option<Times>,
}

impl Row {
    /// The lower times of two passes.
    pub fn lower(self, other: Row) -> Row {
        let lower = |one: Vec<f64>, other: Vec<f64>| {
            let pairs = one.into_iter().zip(other);
            pairs.map(|(one, other)| one.min(other)).collect()
        };
        let peers = self.peer.zip(other.peer);
        Row {
            name: self.name,
            library: lower(self.library, other.library),
            second: lower(self.second, other.second),
            peer: peers.map(|(one, other)| one.lower(other)),
        }
    }

    fn library(&self) -> f64 {
        self.library.iter().sum()
    }

    fn second(&self) -> f64 {
        self.second.iter().sum()
    }
}

/// Times all rows in one pass.
pub fn measure(loads: &Loads, peer: &mut Option<Peer>) -> Result<Vec<Row>, String> {
    let mut rows = calculations(peer)?;
    rows.extend(machine::measure(loads)?);
    Ok(rows)
}

/// The table of all rows beside the second implementation, and, where SimGrid is there, the table of
/// the calculations beside it.
pub fn tables(rows: &[Row], peer: &Option<Peer>) -> String {
    let head = [
        "",
        "library, microseconds",
        "second, microseconds",
        "library / second",
        "library, a second",
    ];
    let beside_second: Vec<_> = rows.iter().map(beside_second).collect();
    let mut tables = "Beside the second implementation:\n\n".to_string();
    tables.push_str(&table(&head, &beside_second));
    if let Some(peer) = peer {
        let heads = heads(&peer.name());
        let mut head = vec!["", "library"];
        head.extend(heads.iter().map(String::as_str));
        let beside_peer: Vec<_> = rows.iter().filter_map(beside_peer).collect();
        tables.push_str("\nBeside SimGrid's solver, in microseconds:\n\n");
        tables.push_str(&table(&head, &beside_peer));
    }
    tables
}

fn beside_second(row: &Row) -> Vec<String> {
    vec![
        row.name.to_string(),
        time(row.library()),
        time(row.second()),
        ratio(row.library() / row.second()),
        a_second(row.library()),
    ]
}

fn beside_peer(row: &Row) -> Option<Vec<String>> {
    let mut cells = vec![row.name.to_string(), time(row.library())];
    cells.extend(row.peer?.cells(row.library()));
    Some(cells)
}

fn calculations(peer: &mut Option<Peer>) -> Result<Vec<Row>, String> {
    let (middle, full) = (network(16, 12, 3), network(64, 32, 8));
    Ok(vec![
        calculation("calculation, P6 (2 links, 4 sessions)", P6, 500, peer)?,
        calculation("calculation, 16 links, 12 sessions", &middle, 100, peer)?,
        calculation("calculation, 64 links, 32 sessions", &full, 20, peer)?,
    ])
}

// So many calculations a turn; the second implementation, which is slower, makes a tenth of them.
fn calculation(
    name: &'static str,
    records: &[u8],
    times: usize,
    peer: &mut Option<Peer>,
) -> Result<Row, String> {
    peer::load(peer, records)?;
    let [library, second, fresh, disposing, kept, solving] = lowest(ROUNDS, || {
        let library = library(records, times);
        let second = second(records, times / 10);
        let [fresh, disposing, kept, solving] = peer::turn(peer, times)?;
        Ok([library, second, fresh, disposing, kept, solving])
    })?;
    let one = |time| microseconds(time, times);
    Ok(Row {
        name,
        library: vec![one(library)],
        second: vec![microseconds(second, times / 10)],
        peer: peer.as_ref().map(|_| Times {
            fresh: one(fresh),
            disposing: one(disposing),
            kept: one(kept),
            solving: one(solving),
        }),
    })
}
