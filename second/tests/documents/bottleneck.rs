//! 02, §2: the binding place is "own" where the rate equals D, else the first link of the path, in path
//! order, that is a bottleneck of the session (001, Definition 1): fully used, and no session on it has
//! more.

use crate::common::{calculated, link, plain_session, session, Random};
use crate::fairness::{
    is_fully_used, nobody_has_more, random_network, rates_on, scaled, Network, Scaled,
};
use second::texts::shares;

const OWN: u64 = 64;

// The text of `shares` after its header.
fn sessions_of(records: &[Vec<u8>]) -> String {
    let text = shares(&records.concat());
    let (_, sessions) = text.split_once('\n').expect("a header");
    sessions.to_string()
}

#[test]
fn example_of_the_document() {
    let records = [
        link(0, 10),
        link(1, 4),
        plain_session(0, &[0, 1]),
        plain_session(1, &[0]),
    ];
    let expected = "links 2 sessions 2\n0 4/1 link 1\n1 6/1 link 0\n";
    assert_eq!(shares(&records.concat()), expected);
    let recorded = include_bytes!("../../../examples/binding.bin");
    assert_eq!(records.concat(), recorded);
    assert_eq!(expected, include_str!("../../../examples/binding.txt"));
}

// P8: 5 and 5 use all of link 0 and neither has more, so link 0 is a bottleneck of both; session 0
// has its maximum besides.
#[test]
fn own_comes_before_a_bottleneck() {
    let with_maximum = |maximum: u32| {
        [
            link(0, 10),
            session(0, 100, maximum, &[0]),
            plain_session(1, &[0]),
        ]
    };
    let expected = "0 5/1 own\n1 5/1 link 0\n";
    assert_eq!(sessions_of(&with_maximum(5)), expected);
    // One more, and the maximum binds no longer; one less, and session 1 has more on the link.
    let expected = "0 5/1 link 0\n1 5/1 link 0\n";
    assert_eq!(sessions_of(&with_maximum(6)), expected);
    let expected = "0 4/1 own\n1 6/1 link 0\n";
    assert_eq!(sessions_of(&with_maximum(4)), expected);
}

// The same with the access rate, alone on the link, and with a bottleneck first or last on the path.
#[test]
fn own_by_the_access_rate() {
    for (access, place) in [(9, "9/1 own"), (10, "10/1 own"), (11, "10/1 link 0")] {
        for path in [&[0][..], &[0, 1], &[1, 0]] {
            let records = [link(0, 10), link(1, 20), session(0, access, 0, path)];
            assert_eq!(sessions_of(&records), format!("0 {place}\n"));
        }
    }
}

// Links 3 and 5 have 10 for two sessions each: 5 for all three, and both are bottlenecks of session 0.
// Link 9 before, between or after them is not fully used.
#[test]
fn first_of_two_bottlenecks_in_path_order() {
    for (path, first) in [
        (&[3, 5][..], 3),
        (&[5, 3], 5),
        (&[9, 3, 5], 3),
        (&[9, 5, 3], 5),
        (&[3, 9, 5], 3),
        (&[5, 9, 3], 5),
    ] {
        let records = [
            link(3, 10),
            link(5, 10),
            link(9, 10),
            plain_session(0, path),
            plain_session(1, &[3]),
            plain_session(2, &[5]),
        ];
        let expected = format!("0 5/1 link {first}\n1 5/1 link 3\n2 5/1 link 5\n");
        assert_eq!(sessions_of(&records), expected);
    }
}

// Link 2 gives session 0 its 3; session 1 gets the 27 left of link 0 and session 2 the 9 left of link
// 1. All three links are fully used, and only on link 2 nobody has more than 3.
#[test]
fn fully_used_links_on_which_another_has_more() {
    for path in [
        [0, 1, 2],
        [0, 2, 1],
        [1, 0, 2],
        [1, 2, 0],
        [2, 0, 1],
        [2, 1, 0],
    ] {
        let records = [
            link(0, 30),
            link(1, 12),
            link(2, 3),
            plain_session(0, &path),
            plain_session(1, &[0]),
            plain_session(2, &[1]),
        ];
        let expected = "0 3/1 link 2\n1 27/1 link 0\n2 9/1 link 1\n";
        assert_eq!(sessions_of(&records), expected);
    }
}

// Who has more may be bound by its own limit: session 1 has a maximum of 6, which is just what session 0
// leaves of link 0.
#[test]
fn another_that_has_more_and_is_bound_by_its_own_limit() {
    let records = |maximum: u32| {
        [
            link(0, 10),
            link(1, 4),
            plain_session(0, &[0, 1]),
            session(1, 100, maximum, &[0]),
        ]
    };
    assert_eq!(sessions_of(&records(6)), "0 4/1 link 1\n1 6/1 own\n");
    // With one less, link 0 is not fully used, and session 1 still has more.
    assert_eq!(sessions_of(&records(5)), "0 4/1 link 1\n1 5/1 own\n");
}

// Session 0 has 4 by link 1. On link 0 session 1 has 2, so nobody has more than session 0; with a
// capacity of 6 the link is fully used, with 7 it is not.
#[test]
fn a_link_on_which_nobody_has_more_and_some_is_left() {
    for (capacity, place) in [(6, 0), (7, 1), (1_000_000, 1)] {
        let records = [
            link(0, capacity),
            link(1, 4),
            plain_session(0, &[0, 1]),
            session(1, 100, 2, &[0]),
        ];
        let expected = format!("0 4/1 link {place}\n1 2/1 own\n");
        assert_eq!(sessions_of(&records), expected);
    }
}

// Three sessions have 10/3 each by link 1. Two of them use 20/3 of the 7 of link 0.
#[test]
fn a_third_that_is_left() {
    let records = [
        link(0, 7),
        link(1, 10),
        plain_session(0, &[0, 1]),
        plain_session(1, &[0, 1]),
        plain_session(2, &[1]),
    ];
    let expected = "0 10/3 link 1\n1 10/3 link 1\n2 10/3 link 1\n";
    assert_eq!(sessions_of(&records), expected);
}

// Session 3 has what session 0 leaves of the 7 of link 0: 11/3, which is more than 10/3.
#[test]
fn a_third_more() {
    let records = [
        link(0, 7),
        link(1, 10),
        plain_session(0, &[0, 1]),
        plain_session(1, &[1]),
        plain_session(2, &[1]),
        plain_session(3, &[0]),
    ];
    let expected = "0 10/3 link 1\n1 10/3 link 1\n2 10/3 link 1\n3 11/3 link 0\n";
    assert_eq!(sessions_of(&records), expected);
}

// "No session has more": who has as much does not count, wherever that one is bound. Link 1 gives
// session 1 just the half of link 0; with one less there, session 0 has more than session 1.
#[test]
fn as_much_is_not_more() {
    let records = |capacity: u32, path: &[u8]| {
        [
            link(0, 10),
            link(1, capacity),
            plain_session(0, &[0]),
            plain_session(1, path),
        ]
    };
    let expected = "0 5/1 link 0\n1 5/1 link 0\n";
    assert_eq!(sessions_of(&records(5, &[0, 1])), expected);
    let expected = "0 5/1 link 0\n1 5/1 link 1\n";
    assert_eq!(sessions_of(&records(5, &[1, 0])), expected);
    let expected = "0 6/1 link 0\n1 4/1 link 1\n";
    assert_eq!(sessions_of(&records(4, &[0, 1])), expected);
    assert_eq!(sessions_of(&records(4, &[1, 0])), expected);
}

// The longest path and the largest numbers: links 56 to 62 are each filled by a session that has
// 999,999, and link 63 of 1 is the eighth of session 31.
#[test]
fn the_last_link_of_the_longest_path() {
    let mut records: Vec<Vec<u8>> = (56..63).map(|number| link(number, 1_000_000)).collect();
    records.push(link(63, 1));
    let path: Vec<u8> = (56..64).collect();
    records.push(session(31, 1_000_000, 0, &path));
    let mut expected = String::new();
    for number in 0..7 {
        records.push(session(number, 1_000_000, 0, &[56 + number]));
        expected += &format!("{number} 999999/1 link {}\n", 56 + number);
    }
    expected += "31 1/1 link 63\n";
    assert_eq!(sessions_of(&records), expected);
}

// How many sessions tell this rule from one that is nearly the same.
#[derive(Debug, Default)]
struct Seen {
    // Own, although a link is a bottleneck too.
    own_at_a_bottleneck: usize,
    // Before the place: a fully used link, on which another has more.
    past_a_fully_used_link: usize,
    // Before the place: a link on which nobody has more, and some of it is left.
    past_a_link_with_some_left: usize,
    // After the place: another bottleneck.
    second_further_on: usize,
    // On the place: another session with the same rate.
    with_as_much: usize,
}

// The rule by the rates that were written: 64 exactly where the rate is D, else a link of the path
// that is a bottleneck, and none before it is.
fn check(network: &Network, seen: &mut Seen) {
    let (_, [nums, dens, places]) = calculated(&network.records()).expect("the records are sound");
    let scaled = scaled(network, &nums, &dens);
    for (one, &rate) in network.sessions.iter().zip(&scaled.rates) {
        let (number, path) = (usize::from(one.number), &one.path);
        let fully_used = |on: &u8| is_fully_used(network, &scaled, *on);
        let has_most = |on: &u8| nobody_has_more(network, &scaled, *on, rate);
        let bottleneck = |on: &u8| fully_used(on) && has_most(on);
        let is_own = rate == one.own_limit() * scaled.unit;
        assert_eq!(places[number] == OWN, is_own, "session {number}");
        if is_own {
            seen.own_at_a_bottleneck += usize::from(path.iter().any(bottleneck));
            continue;
        }
        let at = path.iter().position(|&on| u64::from(on) == places[number]);
        let at = at.expect("a link of the path");
        let (before, place, after) = (&path[..at], path[at], &path[at + 1..]);
        assert!(bottleneck(&place), "session {number} at link {place}");
        assert!(!before.iter().any(bottleneck), "session {number}");
        seen.past_a_fully_used_link += usize::from(before.iter().any(fully_used));
        seen.past_a_link_with_some_left += usize::from(before.iter().any(has_most));
        seen.second_further_on += usize::from(after.iter().any(bottleneck));
        seen.with_as_much += usize::from(equal_on(network, &scaled, place, rate) > 1);
    }
}

// How many sessions on a link have this rate.
fn equal_on(network: &Network, scaled: &Scaled, link: u8, rate: u128) -> usize {
    let rates = rates_on(network, scaled, link);
    rates.filter(|&other| other == rate).count()
}

fn every_kind_was_seen(seen: &Seen) {
    let kinds = [
        seen.own_at_a_bottleneck,
        seen.past_a_fully_used_link,
        seen.past_a_link_with_some_left,
        seen.second_further_on,
        seen.with_as_much,
    ];
    assert!(kinds.iter().all(|&count| count > 100), "{seen:?}");
}

#[test]
fn small_networks() {
    let mut random = Random::new(3);
    let mut seen = Seen::default();
    for _ in 0..20_000 {
        check(&random_network(&mut random, 5, 6), &mut seen);
    }
    every_kind_was_seen(&seen);
}

#[test]
fn large_networks() {
    let mut random = Random::new(4);
    let mut seen = Seen::default();
    for _ in 0..2_000 {
        check(&random_network(&mut random, 64, 32), &mut seen);
        check(&random_network(&mut random, 12, 32), &mut seen);
    }
    every_kind_was_seen(&seen);
}
