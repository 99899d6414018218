//! Random damage to reachable tables.

use crate::common::{plain_session, Random};
use crate::random::{check_record, random_run, Seen};
use crate::reading_back::read_back;
use crate::world::{world, World};
use crate::writing::written;
use second::machine::table::{Table, NEVER_JOINED, YES};
use second::machine::{passes_14, run, settled, write};
use second::making::ODD_NUMBERS;

// Every field that exists in a table.
fn fields(table: &mut Table) -> Vec<&mut u64> {
    let mut fields = Vec::new();
    for one in &mut table.links {
        let held = one.r | one.f;
        let declared = one.declared == YES;
        if declared {
            fields.extend([&mut one.declared, &mut one.capacity, &mut one.r, &mut one.f]);
        }
        for (number, entry) in one.entries.iter_mut().enumerate() {
            if held >> number & 1 == 1 {
                fields.extend([&mut entry.state, &mut entry.num, &mut entry.den]);
            }
        }
    }
    for source in &mut table.sources {
        if source.standing == NEVER_JOINED {
            continue;
        }
        fields.extend([
            &mut source.standing,
            &mut source.access,
            &mut source.maximum,
            &mut source.length,
            &mut source.set,
            &mut source.state,
            &mut source.upd_rcv,
            &mut source.bneck_rcv,
            &mut source.num,
            &mut source.den,
            &mut source.told,
            &mut source.told_num,
            &mut source.told_den,
        ]);
        fields.extend(source.path.iter_mut());
    }
    for packet in &mut table.packets {
        fields.extend([
            &mut packet.kind,
            &mut packet.session,
            &mut packet.hop,
            &mut packet.direction,
            &mut packet.num,
            &mut packet.den,
            &mut packet.named,
            &mut packet.tau,
            &mut packet.beta,
        ]);
    }
    fields
}

// Damaged tables are refused 14 and left, or they are run on: every call ends, and a refusal leaves
// the table as it was.
#[test]
fn damaged_tables() {
    let (mut sound, mut unsound) = (0, 0);
    for seed in 0..6_000 {
        let mut world = world(Random::new(4_000 + seed), 3, 4);
        let mut machine = random_run(&mut world, 5, &mut Seen::default());
        for _ in 0..25 {
            let record = world.event(&machine.table);
            check_record(&mut machine, &record, &mut Seen::default());
        }
        let mut table = machine.table;
        for _ in 0..1 + world.random.under(3) {
            // An empty table has no field to damage.
            let mut fields = fields(&mut table);
            if let Some(last) = fields.len().checked_sub(1) {
                let place = world.random.under(last + 1);
                *fields[place] = world.random.one_of(&ODD_NUMBERS);
            }
        }
        if passes_14(&table).is_err() {
            unsound += 1;
            check_refused_14(table);
        } else {
            sound += 1;
            check_ends(table, &mut world);
        }
    }
    assert!(sound > 500 && unsound > 500, "{sound} {unsound}");
}

fn check_refused_14(mut table: Table) {
    let before = table.clone();
    let ran = run(&mut table, &plain_session(0, &[0]));
    assert_eq!((ran.taken, ran.refused.unwrap().number), (0, 14));
    assert!(table == before);
    assert_eq!(settled(&table).unwrap_err().number, 14);
    assert_eq!(write(&table, &mut []).unwrap_err().number, 14);
}

fn check_ends(mut table: Table, world: &mut World) {
    // 02, §3: what is written of a table that passes 14 is read elsewhere.
    read_back(&written(&table));
    for _ in 0..60 {
        let record = world.event(&table);
        let before = table.clone();
        let ran = run(&mut table, &record);
        if ran.taken == 0 {
            assert!(table == before);
        }
        // The sum of F stays within C whatever the table was, so a step never meets less than 0.
        let _ = settled(&table);
    }
}
