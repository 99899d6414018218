//! 01, "Examples": P1 to P13, the machine examples and the texts of the two programs.

use crate::common::{at_rest, deliver, link, plain_session, session};
use second::machine::{settled, table, Table};
use second::texts::{shares, steps};

#[test]
fn p1_empty_input() {
    assert_eq!(shares(&[]), "links 0 sessions 0\n");
}

#[test]
fn p2_one_link_one_session() {
    let input = [link(0, 10), plain_session(0, &[0])].concat();
    assert_eq!(shares(&input), "links 1 sessions 1\n0 10/1 link 0\n");
}

#[test]
fn p3_access_below_the_link() {
    let input = [link(0, 10), session(0, 7, 0, &[0])].concat();
    assert_eq!(shares(&input), "links 1 sessions 1\n0 7/1 own\n");
}

#[test]
fn p4_maximum_below_access() {
    let input = [link(0, 10), session(0, 7, 4, &[0])].concat();
    assert_eq!(shares(&input), "links 1 sessions 1\n0 4/1 own\n");
}

fn p5() -> [Vec<u8>; 4] {
    [
        link(0, 10),
        plain_session(0, &[0]),
        plain_session(1, &[0]),
        plain_session(2, &[0]),
    ]
}

#[test]
fn p5_three_sessions() {
    let expected = "links 1 sessions 3\n0 10/3 link 0\n1 10/3 link 0\n2 10/3 link 0\n";
    assert_eq!(shares(&p5().concat()), expected);
}

fn p6() -> [Vec<u8>; 6] {
    [
        link(0, 10),
        link(1, 20),
        plain_session(0, &[0]),
        plain_session(1, &[0]),
        plain_session(2, &[0, 1]),
        plain_session(3, &[1]),
    ]
}

#[test]
fn p6_two_links() {
    let input = p6().concat();
    assert_eq!(input.len(), 88);
    let expected = "links 2 sessions 4\n\
                    0 10/3 link 0\n\
                    1 10/3 link 0\n\
                    2 10/3 link 0\n\
                    3 50/3 link 1\n";
    assert_eq!(shares(&input), expected);
}

fn p7_with_maximum(maximum: u32) -> [Vec<u8>; 3] {
    [
        link(0, 10),
        session(0, 100, maximum, &[0]),
        plain_session(1, &[0]),
    ]
}

#[test]
fn p7_maximum_of_two() {
    let expected = "links 1 sessions 2\n0 2/1 own\n1 8/1 link 0\n";
    assert_eq!(shares(&p7_with_maximum(2).concat()), expected);
}

#[test]
fn p8_maximum_of_five() {
    let expected = "links 1 sessions 2\n0 5/1 own\n1 5/1 link 0\n";
    assert_eq!(shares(&p7_with_maximum(5).concat()), expected);
}

#[test]
fn p9_thirty_two_sessions() {
    let mut input = link(0, 1);
    let mut expected = "links 1 sessions 32\n".to_string();
    for number in 0..32 {
        input.extend(plain_session(number, &[0]));
        expected += &format!("{number} 1/32 link 0\n");
    }
    assert_eq!(shares(&input), expected);
}

#[test]
fn p10_path_length_zero() {
    let input = [link(0, 10), plain_session(0, &[])].concat();
    assert_eq!(shares(&input), "refused 6 at 6\n");
}

#[test]
fn p11_path_length_nine() {
    let links: Vec<u8> = (0..9).flat_map(|number| link(number, 10)).collect();
    let path: Vec<u8> = (0..9).collect();
    let input = [links, plain_session(0, &path)].concat();
    assert_eq!(shares(&input), "refused 6 at 54\n");
}

#[test]
fn p12_capacity_at_its_limit() {
    assert_eq!(shares(&link(0, 1_000_000)), "links 1 sessions 0\n");
    assert_eq!(shares(&link(0, 1_000_001)), "refused 5 at 0\n");
}

#[test]
fn p13_link_declared_twice() {
    let input = [link(0, 10), link(0, 10)].concat();
    assert_eq!(shares(&input), "refused 7 at 6\n");
}

fn delivered_six_times(records: &[Vec<u8>]) -> Vec<u8> {
    let deliveries = vec![deliver(0); 6].concat();
    [records.concat(), deliveries].concat()
}

#[test]
fn machine_p2_text() {
    let input = delivered_six_times(&[link(0, 10), plain_session(0, &[0])]);
    assert_eq!(input.len(), 43);
    assert_eq!(steps(&input), "taken 8 packets 0 settled yes\n0 10/1\n");
}

#[test]
fn machine_p2_table() {
    let machine = at_rest(&[link(0, 10), plain_session(0, &[0])]);
    // Link, session, and six deliveries, as the example counts them.
    assert_eq!(machine.bytes.len(), 43);
    assert_eq!(settled(&machine.table), Ok(true));
    assert_eq!(machine.rate_at(0, 0), (10, 1));
    assert_eq!((machine.table.links[0].r, machine.table.links[0].f), (1, 0));
}

#[test]
fn machine_p3() {
    let records = [link(0, 10), session(0, 7, 0, &[0])];
    let input = delivered_six_times(&records);
    assert_eq!(steps(&input), "taken 8 packets 0 settled yes\n0 7/1\n");
    let machine = at_rest(&records);
    assert_eq!(machine.bytes.len(), 43);
    assert_eq!(machine.rate_at(0, 0), (7, 1));
    assert_eq!((machine.table.links[0].r, machine.table.links[0].f), (0, 1));
}

// The machine comes to the rates that document 01 gives for the calculation.
#[test]
fn machine_p5_to_p8() {
    let cases: [(&[Vec<u8>], &str); 4] = [
        (&p5(), "0 10/3\n1 10/3\n2 10/3\n"),
        (&p6(), "0 10/3\n1 10/3\n2 10/3\n3 50/3\n"),
        (&p7_with_maximum(2), "0 2/1\n1 8/1\n"),
        (&p7_with_maximum(5), "0 5/1\n1 5/1\n"),
    ];
    for (records, rates) in cases {
        let text = steps(&at_rest(records).bytes);
        let (head, tail) = text.split_once('\n').unwrap();
        assert!(head.ends_with(" packets 0 settled yes"), "{head}");
        assert_eq!(tail, rates);
    }
}

#[test]
fn steps_of_nothing() {
    assert_eq!(steps(&[]), "taken 0 packets 0 settled yes\n");
}

// A session that has been told nothing yet, and the refusal at the end of the output.
#[test]
fn steps_after_a_refusal() {
    let joined = [link(0, 10), plain_session(3, &[0])].concat();
    let input = [joined, deliver(1)].concat();
    let expected = "taken 2 packets 1 settled no\n3 none\nrefused 11 at 25\n";
    assert_eq!(steps(&input), expected);
}

// A link is never settled or not by itself: declared links without sessions are a settled table.
#[test]
fn links_alone_are_settled() {
    assert_eq!(steps(&link(63, 1)), "taken 1 packets 0 settled yes\n");
}

#[test]
fn input_one_byte_too_long() {
    let input = vec![0; 32_769];
    assert_eq!(shares(&input), "refused 1 at 0\n");
    let expected = "taken 0 packets 0 settled yes\nrefused 1 at 0\n";
    assert_eq!(steps(&input), expected);
    // At the limit the first byte is read, and 0 is no kind.
    assert_eq!(shares(&input[1..]), "refused 2 at 0\n");
}

// "Handed table: C is 1, F holds one rate of 1/1,048,576, R has one member; a second join
// delivered there is refused 12."
#[test]
fn handed_table_refused_12() {
    let mut handed = Table::empty();
    handed.links[0].declared = table::YES;
    handed.links[0].capacity = 1;
    for number in 0..2 {
        let source = &mut handed.sources[number];
        source.standing = table::ACTIVE;
        source.access = 100;
        source.length = 1;
        source.path[0] = 0;
    }
    handed.links[0].f = 0b01;
    handed.links[0].entries[0].num = 1;
    handed.links[0].entries[0].den = 1_048_576;
    handed.links[0].r = 0b10;
    let input = [plain_session(2, &[0]), deliver(0)].concat();
    let ran = second::machine::run(&mut handed, &input);
    assert_eq!(ran.taken, 1);
    assert_eq!(ran.refused, crate::common::refused(12, 19));
    // The table is the one before the refused delivery: joined, and the Join still in flight.
    assert_eq!(handed.packets.len(), 1);
    assert_eq!(handed.links[0].r, 0b10);
}
