//! The machine: the examples of documents 01 and 02, refusals, what sessions were told, handed tables,
//! and the records of a table.

use std::fs;
use std::path::Path;

use umbraconga::{calculate, Ran, Refused, Table, Told, RECORDS_MOST, TABLE_WORDS};

// Link 0 of 10 and session 0 over it, which joins.
const JOINED: [u8; 25] = [
    1, 0, 0, 0, 0, 10, 2, 0, 0, 0, 0, 100, 0, 0, 0, 0, 1, 0, 255, 255, 255, 255, 255, 255, 255,
];
const DELIVER_FIRST: [u8; 3] = [5, 0, 0];

fn refused(number: u64, place: u64) -> Option<Refused> {
    Some(Refused { number, place })
}

fn joined() -> Table {
    let mut table = Table::empty();
    let ran = table.run(&JOINED);
    let both = Ran {
        taken: 2,
        refused: None,
    };
    assert_eq!(ran, both);
    table
}

#[test]
fn the_examples_for_steps() {
    let folder = Path::new(env!("CARGO_MANIFEST_DIR")).join("../examples/steps");
    let names = [
        "p1",
        "p2",
        "p3",
        "joined",
        "refused_1",
        "refused_9",
        "refused_11",
        "refused_12",
        "refused_13",
        "refused_16",
    ];
    for name in names {
        let read = |end: &str| {
            let file = folder.join(format!("{name}.{end}"));
            fs::read(&file).unwrap_or_else(|error| panic!("{}: {error}", file.display()))
        };
        let mut table = Table::empty();
        let Ran { taken, refused } = table.run(&read("bin"));
        let mut printed = format!("taken {taken} {table}\n");
        if let Some(refused) = refused {
            printed += &format!("{refused}\n");
        }
        let text = String::from_utf8(read("txt")).expect("the texts are ASCII");
        assert_eq!(printed, text, "{name}");
    }
}

#[test]
fn told_from_join_to_leave() {
    let mut table = joined();
    assert_eq!((table.told(0), table.in_flight()), (Told::None, 1));
    assert_eq!(table.settled(), Ok(false));
    while table.run(&DELIVER_FIRST).refused.is_none() {}
    assert_eq!(table.told(0), Told::Rate { num: 10, den: 1 });
    assert_eq!((table.settled(), table.in_flight()), (Ok(true), 0));
    assert_eq!(table.run(&[3, 0]).taken, 1);
    assert_eq!(table.told(0), Told::NotActive);
    assert_eq!(table.settled(), Ok(false));
    for other in [1, 31, 32, 63, u32::MAX] {
        assert_eq!(table.told(other), Told::NotActive);
    }
}

#[test]
fn a_refused_record_changes_no_word() {
    let mut table = joined();
    let before = table.words().to_vec();
    // Position 9 is past the end.
    let ran = table.run(&[5, 0, 9]);
    assert_eq!((ran.taken, ran.refused), (0, refused(11, 0)));
    assert_eq!(table.words()[..], before);
    let mut once = joined();
    assert_eq!(once.run(&DELIVER_FIRST).refused, None);
    // The first delivery is taken, the second is not.
    let ran = table.run(&[5, 0, 0, 5, 0, 9]);
    assert_eq!((ran.taken, ran.refused), (1, refused(11, 3)));
    assert_eq!(ran.to_string(), "taken 1, refused 11 at 3");
    assert_eq!(table.words(), once.words());
}

// The access rate of session 0 is 100 (02, §1).
#[test]
fn a_maximum_above_the_access_rate() {
    let change = |maximum: u8| [4, 0, 0, 0, 0, maximum];
    let mut table = joined();
    let before = table.words().to_vec();
    let ran = table.run(&change(101));
    assert_eq!((ran.taken, ran.refused), (0, refused(16, 0)));
    assert_eq!(table.words()[..], before);
    assert_eq!(
        ran.refused.expect("a refusal").reason(),
        "a maximum above the session's access rate"
    );
    for maximum in [100, 99, 0] {
        assert_eq!(table.run(&change(maximum)).refused, None);
    }
    // 9 comes first: session 1 is not active.
    assert_eq!(table.run(&[4, 1, 0, 0, 0, 101]).refused, refused(9, 0));
    // A table handed in with such a maximum, which is the third word of its source.
    let mut words = table.into_words();
    for (maximum, fault) in [(100, None), (101, refused(14, 0)), (0, None)] {
        words[6336 + 2] = maximum;
        let mut table = Table::from_words(words.clone());
        assert_eq!(table.settled().err(), fault);
        assert_eq!(table.run(&[]).refused, fault);
    }
}

#[test]
fn a_table_with_a_fault_is_refused() {
    let mut words = joined().into_words();
    // The capacity of link 0.
    words[0] = 1_000_001;
    let mut table = Table::from_words(words.clone());
    assert_eq!(table.settled(), Err(refused(14, 0).expect("a refusal")));
    for records in [&[][..], &DELIVER_FIRST, &[1; 40_000]] {
        let ran = table.run(records);
        assert_eq!((ran.taken, ran.refused), (0, refused(14, 0)));
        assert_eq!(table.words(), &*words);
    }
    words[0] = 1_000_000;
    assert_eq!(Table::from_words(words).settled(), Ok(false));
}

#[test]
fn the_empty_table() {
    let mut table = joined();
    table.make_empty();
    assert_eq!(table.words(), Table::empty().words());
    assert_eq!(table.words(), &[0; TABLE_WORDS]);
    assert_eq!((table.settled(), table.in_flight()), (Ok(true), 0));
    assert_eq!(table.to_string(), "packets 0 settled yes");
}

#[test]
fn in_words() {
    let rate = Told::Rate { num: 10, den: 3 };
    let words = [Told::NotActive, Told::None, rate].map(|told| told.to_string());
    assert_eq!(words, ["not active", "none", "10/3"]);
    let debug = format!("{:?}", joined());
    assert_eq!(
        debug,
        "Table { settled: Ok(false), in_flight: 1, active: [0], .. }"
    );
}

// Links 63 and 0, then sessions 31 and 4: declared in falling order, so that the records stand the other
// way round. 1,000,000 is 0f4240, 66,051 is 010203 and 258 is 0102 (01, "Records"; 02, §3).
const FALLING: [u8; 50] = [
    1, 63, 0, 0x0f, 0x42, 0x40, // link 63 of 1,000,000
    1, 0, 0, 0, 0, 10, // link 0 of 10
    2, 31, 0, 1, 2, 3, 0, 0, 1, 2, // session 31: access 66,051, maximum 258
    2, 63, 0, 255, 255, 255, 255, 255, 255, // over 63, then 0
    2, 4, 0, 0, 0, 100, 0, 0, 0, 0, // session 4: access 100, no maximum
    1, 0, 255, 255, 255, 255, 255, 255, 255, // over 0
];
const RISING: [u8; 50] = [
    1, 0, 0, 0, 0, 10, // link 0
    1, 63, 0, 0x0f, 0x42, 0x40, // link 63
    2, 4, 0, 0, 0, 100, 0, 0, 0, 0, // session 4
    1, 0, 255, 255, 255, 255, 255, 255, 255, // and its path
    2, 31, 0, 1, 2, 3, 0, 0, 1, 2, // session 31
    2, 63, 0, 255, 255, 255, 255, 255, 255, // and its path
];

fn falling() -> Table {
    let mut table = Table::empty();
    assert_eq!(table.run(&FALLING).refused, None);
    table
}

#[test]
fn the_records_of_a_table() {
    let mut table = falling();
    assert_eq!(table.records().expect("no fault"), RISING);
    // Packets and states are not kept.
    while table.run(&DELIVER_FIRST).refused.is_none() {}
    assert_eq!(table.settled(), Ok(true));
    assert_eq!(table.records().expect("no fault"), RISING);
    // They are taken elsewhere, and come back.
    let mut elsewhere = Table::empty();
    assert_eq!(elsewhere.run(&RISING).refused, None);
    assert_eq!(elsewhere.records().expect("no fault"), RISING);
    assert_eq!(calculate(&RISING), calculate(&FALLING));
}

#[test]
fn the_example_for_present() {
    let folder = Path::new(env!("CARGO_MANIFEST_DIR")).join("../examples/present");
    let read = |name: &str| {
        let file = folder.join(name);
        fs::read(&file).unwrap_or_else(|error| panic!("{}: {error}", file.display()))
    };
    let mut table = Table::empty();
    assert_eq!(table.run(&read("day.bin")).refused, None);
    assert_eq!(table.records().expect("no fault"), read("day.out"));
}

#[test]
fn a_slice_of_the_outputs_length_or_more() {
    let table = falling();
    for length in [50, 51, 69, RECORDS_MOST, 2_000] {
        let mut out = vec![0xaa; length];
        assert_eq!(table.write_records(&mut out), Ok(50));
        assert_eq!(out[..50], RISING);
        assert_eq!(out[50..], vec![0xaa; length - 50]);
    }
}

#[test]
fn a_slice_that_is_shorter_than_the_output() {
    let table = falling();
    let shorter = refused(17, 0).expect("a refusal");
    for length in 0..50 {
        let mut out = vec![0xaa; length];
        assert_eq!(table.write_records(&mut out), Err(shorter));
        assert_eq!(out, vec![0xaa; length]);
    }
    assert_eq!(shorter.reason(), "a lent slice is shorter than the output");
}

// 14 comes before 17.
#[test]
fn a_table_with_a_fault_is_not_written() {
    let mut words = falling().into_words();
    // The capacity of link 0.
    words[0] = 1_000_001;
    let table = Table::from_words(words);
    let fault = refused(14, 0).expect("a refusal");
    for length in [0, 49, 50, RECORDS_MOST] {
        let mut out = vec![0xaa; length];
        assert_eq!(table.write_records(&mut out), Err(fault));
        assert_eq!(out, vec![0xaa; length]);
    }
    assert_eq!(table.records(), Err(fault));
}

// Session 31 leaves; its entries at the links go one after the other.
#[test]
fn a_leaving_session_is_not_written() {
    let mut table = falling();
    while table.run(&DELIVER_FIRST).refused.is_none() {}
    assert_eq!(table.run(&[3, 31]).refused, None);
    while table.in_flight() > 0 {
        assert_eq!(table.records().expect("no fault"), RISING[..31]);
        assert_eq!(table.run(&DELIVER_FIRST).refused, None);
    }
    assert_eq!(table.records().expect("no fault"), RISING[..31]);
}

// The access rate of session 0 is 100, and its link carries 10: neither is written for the maximum,
// nor, where there is no maximum, the access rate.
#[test]
fn the_present_maximum_is_written() {
    let mut table = joined();
    assert_eq!(table.records().expect("no fault"), JOINED);
    for maximum in [7, 100, 0, 1] {
        assert_eq!(table.run(&[4, 0, 0, 0, 0, maximum]).refused, None);
        let mut changed = JOINED;
        // The last byte of the maximum.
        changed[15] = maximum;
        assert_eq!(table.records().expect("no fault"), changed);
    }
}

#[test]
fn the_fewest_and_the_most_records() {
    assert_eq!(Table::empty().write_records(&mut []), Ok(0));
    assert_eq!(Table::empty().records(), Ok(Vec::new()));
    let mut most = Vec::new();
    for link in 0..64 {
        most.extend([1, link, 0, 0, 0, 10]);
    }
    for session in 0..32 {
        most.extend([2, session, 0, 0, 0, 100, 0, 0, 0, 0, 8]);
        // A path of eight links.
        most.extend(session..session + 8);
    }
    let mut table = Table::empty();
    assert_eq!(table.run(&most).refused, None);
    assert_eq!(most.len(), RECORDS_MOST);
    assert_eq!(table.records(), Ok(most));
}
