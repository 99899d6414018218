//! The calculation: the examples of documents 01 and 02, refusals, and lent slices.

use std::fs;
use std::path::Path;

use umbraconga::{calculate, calculate_into, Declared, Place, Refused, Share, OWN};

// The input of an example, and the text that the program `shares` prints for it.
fn example(name: &str) -> (Vec<u8>, String) {
    let examples = Path::new(env!("CARGO_MANIFEST_DIR")).join("../examples");
    let read = |end: &str| {
        let file = examples.join(format!("{name}.{end}"));
        fs::read(&file).unwrap_or_else(|error| panic!("{}: {error}", file.display()))
    };
    let text = String::from_utf8(read("txt")).expect("the texts are ASCII");
    (read("bin"), text)
}

#[test]
fn the_examples() {
    let names = [
        "p1",
        "p2",
        "p3",
        "p4",
        "p5",
        "p6",
        "p7",
        "p8",
        "p9",
        "p10",
        "p11",
        "p12a",
        "p12b",
        "p13",
        "refused_16",
        "binding",
    ];
    for name in names {
        let (records, text) = example(name);
        let printed = match calculate(&records) {
            Ok(rates) => rates.to_string(),
            Err(refused) => refused.to_string(),
        };
        assert_eq!(format!("{printed}\n"), text, "{name}");
    }
}

#[test]
fn shares_one_by_one() {
    let (records, _) = example("p8");
    let rates = calculate(&records).expect("P8 is accepted");
    let declared = Declared {
        links: 1,
        sessions: 0b11,
    };
    assert_eq!(rates.declared(), declared);
    let share = |session, place| Share {
        session,
        num: 5,
        den: 1,
        place,
    };
    assert_eq!(rates.get(0), Some(share(0, Place::Own)));
    assert_eq!(rates.get(1), Some(share(1, Place::Link(0))));
    for undeclared in [2, 31, 32, usize::MAX] {
        assert_eq!(rates.get(undeclared), None);
    }
    assert_eq!(rates.iter().count(), 2);
}

#[test]
fn only_declared_sessions_are_written() {
    let (records, _) = example("p3");
    let [mut nums, mut dens, mut places] = [[77; 40]; 3];
    let declared = calculate_into(&records, &mut nums, &mut dens, &mut places);
    let expected = Declared {
        links: 1,
        sessions: 1,
    };
    assert_eq!(declared, Ok(expected));
    assert_eq!((nums[0], dens[0], places[0]), (7, 1, OWN));
    for slice in [nums, dens, places] {
        assert_eq!(slice[1..], [77; 39]);
    }
}

#[test]
fn fifteen_before_one_and_nothing_written() {
    let too_long = vec![0; 40_000];
    for short in 0..32 {
        for which in 0..3 {
            let mut lengths = [32; 3];
            lengths[which] = short;
            let [mut nums, mut dens, mut places] = lengths.map(|length| vec![77; length]);
            let refused = calculate_into(&too_long, &mut nums, &mut dens, &mut places);
            let fifteen = Refused {
                number: 15,
                place: 0,
            };
            assert_eq!(refused, Err(fifteen));
            for slice in [nums, dens, places] {
                assert!(slice.iter().all(|&word| word == 77));
            }
        }
    }
    let one = Refused {
        number: 1,
        place: 0,
    };
    assert_eq!(calculate(&too_long), Err(one));
}

#[test]
fn a_refusal_names_its_record() {
    // Link 0, then a leave, which the calculation does not take.
    let refused = calculate(&[1, 0, 0, 0, 0, 10, 3, 0]).expect_err("kind 3 is for the machine");
    assert_eq!((refused.number, refused.place), (2, 6));
    assert_eq!(refused.to_string(), "refused 2 at 6");
    assert_eq!(
        refused.reason(),
        "a kind of record that this call does not take"
    );
}
