//! Random runs. After each record: a refusal left the table as it was, the table passes 14, a quiet
//! table is settled, and a settled one has the rates of the direct calculation.

use crate::common::{calculated, is_in_turn, link, session, Machine, Random};
use crate::world::{world, World};
use second::machine::table::{Table, ACTIVE, JOIN, RESPONSE, WAITING_RESPONSE, YES};
use second::machine::{passes_14, run, settled, Ran};
use std::ops::Range;

#[derive(Default)]
pub struct Seen {
    taken: usize,
    quiet: usize,
    ended: usize,
    in_one_run: usize,
    sessions_settled: usize,
    refused: [usize; 17],
}

// Runs one record and checks everything that holds after it.
pub fn check_record(machine: &mut Machine, record: &[u8], seen: &mut Seen) -> Ran {
    let before = machine.table.clone();
    let ran = run(&mut machine.table, record);
    if let (None, [5, high, low]) = (ran.refused, record) {
        let position = u16::from_be_bytes([*high, *low]);
        check_never_met(&before, usize::from(position));
    }
    match ran.refused {
        Some(refused) => {
            // Damaged bytes may still begin with records that are taken.
            if ran.taken == 0 {
                assert_eq!(refused.place, 0);
                assert!(machine.table == before, "{refused:?} changed the table");
            }
            machine.bytes.extend(&record[..refused.place as usize]);
            seen.refused[refused.number as usize] += 1;
        }
        None => machine.bytes.extend(record),
    }
    seen.taken += ran.taken as usize;
    check_table(&machine.table, seen);
    ran
}

// 01, "Added here", says of two packets that they are never met from an empty table: a Response at a
// link where its session is not both in R and waiting for it, and a Join at a link that already
// holds its session.
fn check_never_met(table: &Table, position: usize) {
    let packet = table.packets[position];
    assert!(is_in_turn(&table.packets, position));
    let session = packet.session as usize;
    let path = table.sources[session].path_links();
    let place = (packet.hop as usize).wrapping_sub(1);
    let Some(&on) = path.get(place) else {
        return;
    };
    let at = &table.links[on as usize];
    if packet.kind == JOIN {
        assert!(!at.holds(session));
    }
    if packet.kind == RESPONSE && at.holds(session) {
        assert_eq!(at.r >> session & 1, 1);
        assert_eq!(at.entries[session].state, WAITING_RESPONSE);
    }
}

fn check_table(table: &Table, seen: &mut Seen) {
    assert_eq!(passes_14(table), Ok(()));
    let answer = settled(table).expect("the table passes 14");
    assert_eq!(answer, table.packets.is_empty(), "quiet is settled");
    if answer {
        seen.quiet += 1;
        seen.sessions_settled += check_rates(table);
    }
}

// The records that declare the table's links and its active sessions with their present maxima.
fn records_of(table: &Table) -> Vec<u8> {
    let mut bytes = Vec::new();
    for (number, one) in table.links.iter().enumerate() {
        if one.declared == YES {
            bytes.extend(link(number as u8, one.capacity as u32));
        }
    }
    for (number, source) in table.sources.iter().enumerate() {
        if source.standing == ACTIVE {
            let path: Vec<u8> = source.path_links().iter().map(|&on| on as u8).collect();
            let (access, maximum) = (source.access as u32, source.maximum as u32);
            bytes.extend(session(number as u8, access, maximum, &path));
        }
    }
    bytes
}

// Demand 3 of the order: the rates in a settled table are those of the direct calculation, at the
// source, at every link of the path, and as last told. Returns how many sessions there are.
fn check_rates(table: &Table) -> usize {
    let (declared, [nums, dens, _]) = calculated(&records_of(table)).unwrap();
    for (number, source) in table.sources.iter().enumerate() {
        let is_active = source.standing == ACTIVE;
        assert_eq!(declared.sessions >> number & 1 == 1, is_active);
        if !is_active {
            continue;
        }
        let rate = (nums[number], dens[number]);
        assert_eq!((source.num, source.den), rate);
        assert_eq!(
            (source.told, source.told_num, source.told_den),
            (1, rate.0, rate.1)
        );
        for &on in source.path_links() {
            let entry = table.links[on as usize].entries[number];
            assert_eq!((entry.num, entry.den), rate);
        }
    }
    declared.sessions.count_ones() as usize
}

// One run: most of the links, a number of random events, and then all packets delivered.
pub fn random_run(world: &mut World, events: usize, seen: &mut Seen) -> Machine {
    let mut machine = Machine::new();
    for number in world.links.clone() {
        if world.random.chance(90) {
            let record = link(number, world.rate());
            check_record(&mut machine, &record, seen);
        }
    }
    for _ in 0..events {
        let record = world.event(&machine.table);
        check_record(&mut machine, &record, seen);
    }
    // That every run settles is not part of the order, so the end is not waited for without limit.
    for _ in 0..20_000 {
        let Some(record) = world.delivery(&machine.table.packets) else {
            break;
        };
        let ran = check_record(&mut machine, &record, seen);
        // A delivery in turn can only be too fine or make too many packets.
        assert!(ran
            .refused
            .is_none_or(|refused| [12, 13].contains(&refused.number)));
    }
    seen.ended += usize::from(machine.table.packets.is_empty());
    machine
}

// All the records taken, in one run from an empty table, give the same table. More than 32,768 bytes
// are not taken in one run; the runs that were checked are counted.
fn check_in_one_run(machine: &Machine, seen: &mut Seen) {
    if machine.bytes.len() > 32_768 {
        return;
    }
    let mut table = Table::empty();
    let ran = run(&mut table, &machine.bytes);
    assert_eq!(ran.refused, None);
    assert!(table == machine.table);
    seen.in_one_run += 1;
}

// One run for each seed, in a world of this many links and sessions, with this many events.
fn runs(seeds: Range<u64>, links: usize, sessions: usize, events: usize) -> Seen {
    let mut seen = Seen::default();
    for seed in seeds {
        let mut world = world(Random::new(seed), links, sessions);
        let machine = random_run(&mut world, events, &mut seen);
        check_in_one_run(&machine, &mut seen);
    }
    seen
}

#[test]
fn small_worlds() {
    let seen = runs(1_000..5_000, 4, 5, 60);
    // The checks were reached: settled tables with sessions, and the refusals that such runs meet.
    assert!(seen.ended > 3_900, "{} runs came to rest", seen.ended);
    assert!(
        seen.in_one_run > 3_900,
        "{} checked in one run",
        seen.in_one_run
    );
    assert!(seen.quiet > 10_000, "{} quiet tables", seen.quiet);
    assert!(seen.sessions_settled > 10_000);
    for number in [2, 3, 4, 5, 6, 7, 8, 9, 10, 11, 16] {
        assert!(seen.refused[number] > 100, "refusal {number}");
    }
}

#[test]
fn worlds_of_many_sessions() {
    let seen = runs(2_000..2_150, 10, 32, 250);
    assert!(seen.ended > 140, "{} runs came to rest", seen.ended);
    assert!(
        seen.in_one_run > 140,
        "{} checked in one run",
        seen.in_one_run
    );
    assert!(seen.sessions_settled > 1_000);
    assert!(seen.taken > 150 * 250);
}

// Records as site staff might type them: bytes with no sense in them at all.
#[test]
fn any_bytes_end() {
    let mut random = Random::new(3);
    for _ in 0..20_000 {
        let length = random.under(60);
        let bytes: Vec<u8> = (0..length)
            .map(|_| match random.chance(60) {
                true => random.under(6) as u8,
                false => random.next() as u8,
            })
            .collect();
        let mut table = Table::empty();
        let Ran { taken, refused } = run(&mut table, &bytes);
        assert!(taken > 0 || refused.is_some() || bytes.is_empty());
        assert_eq!(passes_14(&table), Ok(()));
        // The calculation takes fewer kinds, so it never goes further than the machine.
        assert!(calculated(&bytes).is_err() || refused.is_none());
    }
}
