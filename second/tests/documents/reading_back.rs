//! 02, §3: reading what was written gives the same declarations, two sets have equal output exactly
//! when they are equal, and a file in the writer's order comes back. The program `present`.

use crate::common::{
    at_rest, calculated, change, deliver, leave, link, plain_session, session, taken, Machine,
    Random,
};
use crate::world::world;
use crate::writing::written;
use second::machine::table::{Packet, Table, LEFT};
use second::machine::{run, settled, Ran};
use second::making::record_bytes;
use second::texts::present;
use std::collections::BTreeMap;

// Reads elsewhere what was written: the calculation accepts it, a run on an empty table takes every
// record, and of that table the same bytes are written. Returns how many records there are.
pub fn read_back(bytes: &[u8]) -> usize {
    let (declared, _) = calculated(bytes).unwrap();
    let count = declared.links.count_ones() + declared.sessions.count_ones();
    let mut table = Table::empty();
    let all = Ran {
        taken: u64::from(count),
        refused: None,
    };
    assert_eq!(run(&mut table, bytes), all);
    assert_eq!(written(&table), bytes);
    count as usize
}

#[test]
fn nothing_and_the_fullest_set() {
    assert_eq!(read_back(&[]), 0);
    let links = (0..64).map(|number| link(number, 1_000_000));
    let path = |number: u8| -> Vec<u8> { (number..number + 8).collect() };
    let sessions = (0..32).map(|number| session(number, 1_000_000, 1_000_000, &path(number)));
    let records: Vec<Vec<u8>> = links.chain(sessions).collect();
    assert_eq!(read_back(&records.concat()), 96);
}

// Each set differs from the first in one thing; no two have the same output.
#[test]
fn different_sets_have_different_outputs() {
    let set = |capacity, number, access, maximum, path: &[u8]| {
        vec![
            link(0, capacity),
            link(1, 20),
            session(number, access, maximum, path),
        ]
    };
    let mut sets = vec![
        set(10, 4, 100, 0, &[0, 1]),
        set(11, 4, 100, 0, &[0, 1]),
        set(10, 5, 100, 0, &[0, 1]),
        set(10, 4, 101, 0, &[0, 1]),
        // D is the same.
        set(10, 4, 100, 100, &[0, 1]),
        set(10, 4, 100, 0, &[1, 0]),
        set(10, 4, 100, 0, &[0]),
        set(10, 4, 100, 0, &[1]),
    ];
    let first = sets[0].clone();
    sets.push(first[..2].to_vec());
    sets.push([&first[..], &[link(2, 10)]].concat());
    sets.push([&first[..], &[plain_session(0, &[1])]].concat());
    let outputs: Vec<Vec<u8>> = sets.iter().map(|set| written(&taken(set).table)).collect();
    for (place, output) in outputs.iter().enumerate() {
        assert!(!outputs[..place].contains(output), "set {place}");
    }
}

// The same set by other ways: packets, task states and what has been before are not kept.
#[test]
fn equal_sets_have_equal_outputs() {
    let records = [
        link(0, 10),
        link(1, 20),
        session(0, 100, 30, &[0, 1]),
        session(1, 50, 0, &[1]),
    ];
    let other = [
        link(1, 20),
        session(1, 50, 40, &[1]),
        plain_session(7, &[1]),
        change(1, 0),
        link(0, 10),
        leave(7),
        session(0, 100, 2, &[0, 1]),
        change(0, 30),
    ];
    let tables = [
        taken(&records),
        at_rest(&records),
        taken(&other),
        at_rest(&other),
    ];
    for machine in &tables {
        assert_eq!(written(&machine.table), records.concat());
    }
    assert!(tables[0].table != tables[1].table && tables[1].table != tables[3].table);
}

// P6 with a change and a leave. Session 1 has 2, so 0 and 2 share the other 8 of link 0 once session 3
// has gone: 4 each. Elsewhere the same table comes to rest with the same rates.
#[test]
fn the_rates_of_what_is_read() {
    let records = [
        link(0, 10),
        link(1, 20),
        plain_session(0, &[0]),
        plain_session(1, &[0]),
        plain_session(2, &[0, 1]),
        plain_session(3, &[1]),
    ];
    let mut machine = at_rest(&records);
    machine.take(change(1, 2));
    machine.take(leave(3));
    let bytes = written(&machine.table);
    machine.drain(|_| true);
    assert_eq!(written(&machine.table), bytes);
    assert_eq!(read_back(&bytes), 5);
    assert_eq!(check_rates(&machine.table, &bytes), 3);
    let mut elsewhere = Machine::new();
    assert_eq!(run(&mut elsewhere.table, &bytes).taken, 5);
    elsewhere.drain(|_| true);
    for (number, rate) in [(0, (4, 1)), (1, (2, 1)), (2, (4, 1))] {
        assert_eq!(machine.rate_at(0, number), rate);
        assert_eq!(elsewhere.rate_at(0, number), rate);
    }
}

// The rates last told in a settled table are those that the calculation gives for the output. Returns
// how many sessions there are.
fn check_rates(table: &Table, bytes: &[u8]) -> usize {
    assert_eq!(settled(table), Ok(true));
    let (declared, [nums, dens, _]) = calculated(bytes).unwrap();
    for (number, source) in table.sources.iter().enumerate() {
        assert_eq!(declared.sessions >> number & 1 == 1, source.is_active());
        if source.is_active() {
            let told = (source.told_num, source.told_den);
            assert_eq!(told, (nums[number], dens[number]));
        }
    }
    declared.sessions.count_ones() as usize
}

// The set after the records taken, kept without a table: a record for each link and active session.
#[derive(Default)]
struct Kept {
    links: BTreeMap<u8, Vec<u8>>,
    sessions: BTreeMap<u8, Vec<u8>>,
    changes: usize,
}

impl Kept {
    fn take(&mut self, mut records: &[u8]) {
        while let Some(&kind) = records.first() {
            let (record, after) = records.split_at(record_bytes(kind));
            let number = record[1];
            match kind {
                1 => drop(self.links.insert(number, record.to_vec())),
                2 => drop(self.sessions.insert(number, record.to_vec())),
                3 => drop(self.sessions.remove(&number)),
                // The maximum stands after the access rate.
                4 => {
                    let changed = self.sessions.get_mut(&number).unwrap();
                    changed[6..10].copy_from_slice(&record[2..6]);
                    self.changes += 1;
                }
                _ => {}
            }
            records = after;
        }
    }

    fn bytes(&self) -> Vec<u8> {
        let records: Vec<&[u8]> = self
            .links
            .values()
            .chain(self.sessions.values())
            .map(|record| &record[..])
            .collect();
        records.concat()
    }
}

#[derive(Default)]
struct Seen {
    changes: usize,
    leaving: usize,
    refused: usize,
    sessions_settled: usize,
}

fn check_run(seed: u64, links: usize, sessions: usize, seen: &mut Seen) {
    let mut world = world(Random::new(seed), links, sessions);
    let mut kept = Kept::default();
    let mut table = Table::empty();
    let declarations: Vec<Vec<u8>> = world
        .links
        .clone()
        .into_iter()
        .map(|number| link(number, world.rate()))
        .collect();
    for step in 0..120 {
        let record = match declarations.get(step) {
            Some(declaration) => declaration.clone(),
            None => world.event(&table),
        };
        let ran = run(&mut table, &record);
        let end = ran
            .refused
            .map_or(record.len(), |refused| refused.place as usize);
        kept.take(&record[..end]);
        let bytes = written(&table);
        assert_eq!(bytes, kept.bytes());
        assert_eq!(read_back(&bytes), kept.links.len() + kept.sessions.len());
        if settled(&table) == Ok(true) {
            seen.sessions_settled += check_rates(&table, &bytes);
        }
        let leaving = |packet: &Packet| table.sources[packet.session as usize].standing == LEFT;
        let is_leaving = table.packets.iter().any(leaving);
        seen.leaving += usize::from(is_leaving && !kept.sessions.is_empty());
        seen.refused += usize::from(ran.refused.is_some());
    }
    seen.changes += kept.changes;
}

// After each of random joins, leaves, changes and deliveries, some of them refused.
#[test]
fn random_runs() {
    let mut seen = Seen::default();
    for seed in 0..150 {
        check_run(10_000 + seed, 4, 5, &mut seen);
    }
    for seed in 0..15 {
        check_run(11_000 + seed, 10, 32, &mut seen);
    }
    assert!(seen.changes > 500, "{} changes", seen.changes);
    assert!(seen.leaving > 1_000, "{} with one leaving", seen.leaving);
    assert!(seen.refused > 1_000, "{} refusals", seen.refused);
    let settled = seen.sessions_settled;
    assert!(settled > 1_000, "{settled} sessions settled");
}

// Reading and writing a file in this order gives its bytes back.
#[test]
fn random_files_come_back() {
    let mut random = Random::new(12_000);
    for _ in 0..200 {
        let percent = random.one_of(&[3, 30, 100]);
        let links: Vec<u8> = (0..64).filter(|_| random.chance(percent)).collect();
        let mut records: Vec<Vec<u8>> = Vec::new();
        for &number in &links {
            records.push(link(number, 1 + random.under(1_000_000) as u32));
        }
        for number in 0..32 {
            if !links.is_empty() && random.chance(percent) {
                let access = 1 + random.under(1_000_000);
                let maximum = random.under(access + 1) * random.under(2);
                let path = random.path(&links);
                records.push(session(number, access as u32, maximum as u32, &path));
            }
        }
        let file = records.concat();
        assert_eq!(read_back(&file), records.len());
        assert_eq!(present(&file), file);
    }
}

// The file's session 0 leaves with its packets under way, and session 2 has a new maximum.
#[test]
fn the_example_of_the_program() {
    let records = [
        link(1, 20),
        link(0, 10),
        plain_session(2, &[0, 1]),
        session(0, 100, 50, &[0]),
        deliver(0),
        session(1, 7, 0, &[1]),
        change(2, 4),
        leave(0),
        deliver(0),
    ];
    let input = include_bytes!("../../../examples/present/day.bin");
    assert_eq!(records.concat(), input);
    assert!(taken(&records)
        .table
        .packets
        .iter()
        .any(|packet| packet.session == 0));
    let output = include_bytes!("../../../examples/present/day.out");
    assert_eq!(present(input), output);
    // After a refused record the table that stays is written; what follows is not taken.
    let refused = [&input[..], &leave(0), &link(2, 30)].concat();
    assert_eq!(present(&refused), output);
    let cut = [&input[..], &link(2, 30)[..5]].concat();
    assert_eq!(present(&cut), output);
    // Of an input that is too long nothing is taken.
    assert_eq!(present(&link(0, 10).repeat(6_000)), []);
    assert_eq!(present(&[]), []);
}
