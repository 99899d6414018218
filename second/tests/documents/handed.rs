//! Refusal 14: the sound table that the tests damage, and what every call does with a damaged one.

use crate::common::{deliver, leave, link, plain_session, refused, taken};
use second::machine::table::{Packet, Table, JOIN, LEAVE};
use second::machine::{passes_14, run, settled, write, Fault, Ran};

// Links 0 of 10 and 1 of 20, session 0 over both at rest, session 1 over link 0 with its Join on
// the way, session 2 over both gone again but for its Leave, about to reach link 1.
pub fn sound() -> Table {
    let mut machine = taken(&[link(0, 10), link(1, 20), plain_session(0, &[0, 1])]);
    machine.drain(|_| true);
    machine.take(plain_session(2, &[0, 1]));
    machine.drain(|_| true);
    machine.take(leave(2));
    machine.take(deliver(0));
    machine.drain(|packet| packet.session != 2);
    machine.take(plain_session(1, &[0]));
    let table = machine.table;
    let whereabouts = |packet: &Packet| (packet.kind, packet.session, packet.hop);
    let packets: Vec<_> = table.packets.iter().map(whereabouts).collect();
    assert_eq!(packets, [(LEAVE, 2, 2), (JOIN, 1, 1)]);
    assert!(table.links[1].holds(2) && !table.links[0].holds(2));
    assert_eq!(passes_14(&table), Ok(()));
    table
}

// The table fails this clause, and every call refuses it and leaves it.
pub fn fails(table: Table, fault: Fault) {
    assert_eq!(passes_14(&table), Err(fault));
    assert_eq!(settled(&table).err(), refused(14, 0));
    for input in [vec![], link(9, 1), vec![1; 40_000]] {
        let mut handed = table.clone();
        let ran = run(&mut handed, &input);
        let all_refused = Ran {
            taken: 0,
            refused: refused(14, 0),
        };
        assert_eq!(ran, all_refused);
        assert!(handed == table);
    }
    // 02, §3: 17 is tried after it.
    for length in [0, 992] {
        let mut output = vec![7; length];
        assert_eq!(write(&table, &mut output).err(), refused(14, 0));
        assert_eq!(output, vec![7; length]);
    }
}

pub fn damaged(damage: impl Fn(&mut Table)) -> Table {
    let mut table = sound();
    damage(&mut table);
    table
}

// Each damage alone makes the table fail this clause.
pub fn each_fails(damages: &[fn(&mut Table)], fault: Fault) {
    for damage in damages {
        fails(damaged(damage), fault);
    }
}
