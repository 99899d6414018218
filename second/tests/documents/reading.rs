//! 01, "Records" and refusals 1 to 8 and 15, by the calculation.

use crate::common::{change, deliver, leave, link, plain_session, session};
use second::calculation::{calculate, Declared};
use second::records::{read, Kind, Record, Refusal, Refused};

// Runs the calculation over slices filled with a mark, and demands that a refusal leave the mark.
fn refusal_of(input: &[u8]) -> Refused {
    let (mut nums, mut dens, mut places) = ([77; 32], [78; 32], [79; 32]);
    let refused = calculate(input, &mut nums, &mut dens, &mut places).unwrap_err();
    assert_eq!((nums, dens, places), ([77; 32], [78; 32], [79; 32]));
    refused
}

fn refused(number: u64, place: u64) -> Refused {
    Refused { number, place }
}

#[test]
fn numbers_of_the_refusals() {
    assert_eq!(Refusal::InputTooLong.number(), 1);
    assert_eq!(Refusal::PathDamaged.number(), 6);
    assert_eq!(Refusal::TooFine.number(), 12);
    assert_eq!(Refusal::SliceTooShort.number(), 15);
    assert_eq!(Refusal::MaximumAboveAccess.number(), 16);
    assert_eq!(Refusal::ShorterThanOutput.number(), 17);
}

#[test]
fn a_session_record_read() {
    let bytes = session(31, 1_000_000, 1, &[63, 0]);
    assert_eq!(bytes.len(), 19);
    let record = Record::Session {
        session: 31,
        access: 1_000_000,
        maximum: 1,
        path: vec![63, 0],
    };
    assert_eq!(read(&bytes, 0, &Kind::MACHINE), Ok((record, 19)));
}

#[test]
fn big_endian_numbers() {
    let bytes = [5, 1, 2];
    let record = Record::Deliver { position: 258 };
    assert_eq!(read(&bytes, 0, &Kind::MACHINE), Ok((record, 3)));
    let bytes = [1, 9, 0, 1, 2, 3];
    let record = Record::Link {
        link: 9,
        capacity: 66_051,
    };
    assert_eq!(read(&bytes, 0, &Kind::CALCULATION), Ok((record, 6)));
}

#[test]
fn two_kinds_not_taken_by_the_calculation() {
    for record in [
        leave(0),
        change(0, 1),
        deliver(0),
        vec![0],
        vec![6],
        vec![255],
    ] {
        let input = [link(0, 10), record].concat();
        assert_eq!(refusal_of(&input), refused(2, 6));
    }
}

#[test]
fn three_cut_off() {
    for whole in [link(0, 10), plain_session(0, &[0])] {
        for length in 1..whole.len() {
            let input = [link(5, 1), whole[..length].to_vec()].concat();
            assert_eq!(refusal_of(&input), refused(3, 6), "{length} bytes");
        }
    }
}

#[test]
fn four_numbers_too_high() {
    assert_eq!(refusal_of(&link(64, 10)), refused(4, 0));
    assert_eq!(refusal_of(&link(255, 0)), refused(4, 0));
    assert_eq!(refusal_of(&plain_session(32, &[0])), refused(4, 0));
}

#[test]
fn five_rates_outside_their_range() {
    assert_eq!(refusal_of(&link(0, 0)), refused(5, 0));
    assert_eq!(refusal_of(&link(0, u32::MAX)), refused(5, 0));
    assert_eq!(refusal_of(&session(0, 0, 0, &[0])), refused(5, 0));
    assert_eq!(refusal_of(&session(0, 1_000_001, 0, &[0])), refused(5, 0));
    assert_eq!(refusal_of(&session(0, 1, 1_000_001, &[0])), refused(5, 0));
}

#[test]
fn six_damaged_paths() {
    assert_eq!(refusal_of(&plain_session(0, &[64])), refused(6, 0));
    assert_eq!(refusal_of(&plain_session(0, &[255])), refused(6, 0));
    assert_eq!(refusal_of(&plain_session(0, &[3, 5, 3])), refused(6, 0));
    for unused in 1..8 {
        let mut record = plain_session(0, &[0]);
        record[11 + unused] = 0;
        assert_eq!(refusal_of(&record), refused(6, 0), "unused byte {unused}");
    }
    // A length of 255 is over 8, whatever the bytes are.
    let mut record = plain_session(0, &[0]);
    record[10] = 255;
    assert_eq!(refusal_of(&record), refused(6, 0));
}

#[test]
fn seven_declared_already() {
    let input = [link(0, 10), link(1, 10), link(0, 20)].concat();
    assert_eq!(refusal_of(&input), refused(7, 12));
    let input = [link(0, 10), plain_session(4, &[0]), plain_session(4, &[0])].concat();
    assert_eq!(refusal_of(&input), refused(7, 25));
}

#[test]
fn eight_undeclared_links() {
    let input = [link(0, 10), plain_session(4, &[0, 1]), link(1, 10)].concat();
    assert_eq!(refusal_of(&input), refused(8, 6));
}

// A record with several faults is refused for the one with the lowest number.
#[test]
fn number_order_in_one_record() {
    // Cut off, and its link too high.
    assert_eq!(refusal_of(&[1, 64, 0]), refused(3, 0));
    // Session too high, access 0, path length 0.
    assert_eq!(refusal_of(&session(32, 0, 0, &[])), refused(4, 0));
    // Maximum too high and path length 0.
    assert_eq!(refusal_of(&session(0, 1, 2_000_000, &[])), refused(5, 0));
    // A session twice, with an undeclared link the second time.
    let input = [link(0, 10), plain_session(4, &[0]), plain_session(4, &[9])].concat();
    assert_eq!(refusal_of(&input), refused(7, 25));
    // A path with a link twice that is not declared.
    assert_eq!(refusal_of(&plain_session(0, &[9, 9])), refused(6, 0));
}

// The records are refused in their order: the first that is wrong decides.
#[test]
fn record_order() {
    let input = [link(64, 10), vec![9]].concat();
    assert_eq!(refusal_of(&input), refused(4, 0));
    let input = [plain_session(0, &[0]), link(0, 10)].concat();
    assert_eq!(refusal_of(&input), refused(8, 0));
}

#[test]
fn fifteen_before_one() {
    let long = vec![1; 32_769];
    let mut full = [0; 32];
    let mut other = [0; 32];
    let mut short = [0; 31];
    let result = calculate(&long, &mut full, &mut short, &mut other);
    assert_eq!(result, Err(refused(15, 0)));
    let result = calculate(&[], &mut short, &mut full, &mut other);
    assert_eq!(result, Err(refused(15, 0)));
    let result = calculate(&[], &mut full, &mut other, &mut short);
    assert_eq!(result, Err(refused(15, 0)));
    let result = calculate(&long, &mut full, &mut [0; 40], &mut other);
    assert_eq!(result, Err(refused(1, 0)));
}

#[test]
fn writes_declared_sessions_and_no_others() {
    let (mut nums, mut dens, mut places) = ([77; 33], [78; 33], [79; 33]);
    let input = [
        link(63, 9),
        plain_session(31, &[63]),
        session(1, 2, 0, &[63]),
    ]
    .concat();
    let declared = calculate(&input, &mut nums, &mut dens, &mut places);
    let expected = Declared {
        links: 1 << 63,
        sessions: 1 << 31 | 1 << 1,
    };
    assert_eq!(declared, Ok(expected));
    for place in 0..33 {
        let written = (nums[place], dens[place], places[place]);
        match place {
            // The rest of 9 above the 2 of session 1.
            31 => assert_eq!(written, (7, 1, 63)),
            1 => assert_eq!(written, (2, 1, 64)),
            _ => assert_eq!(written, (77, 78, 79)),
        }
    }
}
