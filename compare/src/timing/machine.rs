//! The machine's rows: deliveries, the test of a table that is handed in, the settled question and
//! the records written out; and how many packets are delivered until a table is settled.

use std::hint::black_box;
use std::time::Duration;

use second::machine::{run, settled, write, Table as Other};
use umbraconga::{Table, RECORDS_MOST};

use super::beside::Row;
use super::markdown::{count, table};
use super::{lowest, microseconds, timed};
use crate::loads::{busy, network, whole_rates, Busy, P6};
use crate::runs::record_ends;

// Rounds of a pass.
const ROUNDS: usize = 4;

/// The machine's inputs.
pub struct Loads {
    // 2 links, 3 sessions, paths of 2.
    small: Load,
    // The specification's example P6.
    p6: Load,
    // 64 links, 32 sessions, paths of 8.
    full: Load,
    // The same with whole rates.
    whole: Load,
}

// Records, and the table at rest on which they are run, of both sides.
struct Load {
    busy: Busy,
    table: Table,
    other: Other,
}

impl Load {
    fn make(network: Vec<u8>) -> Load {
        let (mut table, mut other) = (Table::empty(), Other::empty());
        let busy = busy(network);
        for records in &busy.before {
            assert_eq!(table.run(records).refused, None);
            assert_eq!(run(&mut other, records).refused, None);
        }
        Load { busy, table, other }
    }
}

impl Loads {
    /// Makes the inputs.
    pub fn make() -> Loads {
        let full = network(64, 32, 8);
        Loads {
            small: Load::make(network(2, 3, 2)),
            p6: Load::make(P6.to_vec()),
            whole: Load::make(whole_rates(&full)),
            full: Load::make(full),
        }
    }

    /// How many packets are delivered until none is in flight and the table is settled (01: measured,
    /// not proved).
    pub fn packets(&self) -> String {
        let rows = [
            ("2 links, 3 sessions, paths of 2", &self.small),
            ("64 links, 32 sessions, paths of 8", &self.full),
        ];
        let rows = rows.map(|(name, Load { busy, table, .. })| {
            assert_eq!(table.settled(), Ok(true), "at rest");
            // One call declares and joins, each other one delivers a packet.
            let joined = busy.before.len() - 1;
            let changes = record_ends(&busy.records).len() - busy.deliveries;
            let a_change = busy.deliveries as f64 / changes as f64;
            vec![
                name.to_string(),
                count(joined as u64),
                format!("{a_change:.1}"),
            ]
        });
        let head = ["", "all join at once", "one changes its maximum"];
        format!(
            "Deliveries until the table is settled, always of the packet that was sent first:\n\n{}",
            table(&head, &rows)
        )
    }
}

/// Times the machine's rows in one pass.
pub fn measure(loads: &Loads) -> Result<Vec<Row>, String> {
    let Loads {
        small,
        p6,
        full,
        whole,
    } = loads;
    let alone = [
        "delivery in a call of its own, small table",
        "delivery in a call of its own, P6's table",
        "delivery in a call of its own, full table",
    ];
    Ok(vec![
        deliveries("delivery, 2 links, 3 sessions", small, one_call(small))?,
        deliveries("delivery, 64 links, 32 sessions", full, one_call(full))?,
        deliveries(alone[0], small, many_calls(small))?,
        deliveries(alone[1], p6, many_calls(p6))?,
        deliveries(alone[2], full, many_calls(full))?,
        test_of_14("run of no records, P6's table", p6)?,
        test_of_14("run of no records, full table", full)?,
        test_of_14("run of no records, full table of whole rates", whole)?,
        settled_question("settled, P6's table", p6)?,
        settled_question("settled, full table", full)?,
        written("records written, P6's table", p6)?,
        written("records written, full table", full)?,
    ])
}

// The records to time call by call, and how many deliveries they are.
struct Calls<'a> {
    calls: Vec<&'a [u8]>,
    deliveries: usize,
}

fn one_call(load: &Load) -> Calls<'_> {
    Calls {
        calls: vec![&load.busy.records],
        deliveries: load.busy.deliveries,
    }
}

// The first records, each in a call of its own, in which the whole table is tested for 14.
fn many_calls(load: &Load) -> Calls<'_> {
    let records = &load.busy.records;
    let ends = record_ends(records);
    let starts = [0].into_iter().chain(ends.clone());
    let calls = starts.zip(ends).map(|(from, end)| &records[from..end]);
    let calls: Vec<&[u8]> = calls.take(500).collect();
    let deliveries = calls.iter().filter(|record| record[0] == 5).count();
    Calls { calls, deliveries }
}

// Each call is timed by itself.
fn deliveries(
    name: &'static str,
    load: &Load,
    Calls { calls, deliveries }: Calls,
) -> Result<Row, String> {
    let times = lowest(ROUNDS, || {
        let (mut table, mut other) = (load.table.clone(), load.other.clone());
        let library =
            |records: &&[u8]| timed(|| assert_eq!(table.run(black_box(records)).refused, None));
        let second = |records: &&[u8]| {
            timed(|| assert_eq!(run(&mut other, black_box(records)).refused, None))
        };
        let library: Vec<Duration> = calls.iter().map(library).collect();
        Ok([library, calls.iter().map(second).collect()].concat())
    })?;
    let mut library: Vec<f64> = times
        .into_iter()
        .map(|time| microseconds(time, deliveries))
        .collect();
    let second = library.split_off(calls.len());
    Ok(Row {
        name,
        library,
        second,
        peer: None,
    })
}

// A run of no records, which tests the table for 14 and does nothing else.
fn test_of_14(name: &'static str, load: &Load) -> Result<Row, String> {
    let (mut table, mut other) = (load.table.clone(), load.other.clone());
    one_by_one(
        name,
        || assert_eq!(black_box(&mut table).run(&[]).refused, None),
        || assert_eq!(run(black_box(&mut other), &[]).refused, None),
    )
}

fn settled_question(name: &'static str, load: &Load) -> Result<Row, String> {
    one_by_one(
        name,
        || assert_eq!(black_box(&load.table).settled(), Ok(true)),
        || assert_eq!(settled(black_box(&load.other)), Ok(true)),
    )
}

// The records of the table, into slices that are always long enough.
fn written(name: &'static str, load: &Load) -> Result<Row, String> {
    let mut out = [0; RECORDS_MOST];
    let mut other = [0; RECORDS_MOST];
    one_by_one(
        name,
        || assert!(black_box(&load.table).write_records(&mut out).is_ok()),
        || assert!(write(black_box(&load.other), &mut other).is_ok()),
    )
}

// Calls that are long enough to be timed one by one, some of each side a turn.
fn one_by_one(
    name: &'static str,
    mut library: impl FnMut(),
    mut second: impl FnMut(),
) -> Result<Row, String> {
    let times = lowest(ROUNDS, || {
        let mut times = [Duration::MAX; 2];
        for _ in 0..20 {
            times[0] = times[0].min(timed(&mut library));
        }
        for _ in 0..20 {
            times[1] = times[1].min(timed(&mut second));
        }
        Ok(times)
    })?;
    let [library, second] = times.map(|time| vec![microseconds(time, 1)]);
    Ok(Row {
        name,
        library,
        second,
        peer: None,
    })
}
