//! Random inputs: declarations for the calculation, and runs of the machine in which sessions join,
//! change and leave while packets are delivered in many orders.

use crate::common::{deliver, link, session, Machine, Random};
use crate::world::{world, World};
use crate::Input;
use second::machine::run;
use second::making::maximum_above;

// Links and then sessions over them; of every four inputs about one has a damaged byte, and of every
// ten one a maximum above its session's access rate (02, §1).
fn declarations(random: &mut Random, links: usize, sessions: u8) -> Input {
    let mut numbers: Vec<u8> = (0..64).collect();
    let on: Vec<u8> = (0..links)
        .map(|_| numbers.swap_remove(random.under(numbers.len())))
        .collect();
    let largest = random.one_of(&[6, 30, 1_000, 1_000_000]);
    let rate = |random: &mut Random| 1 + random.under(largest) as u32;
    let mut bytes = Vec::new();
    for &number in &on {
        bytes.extend(link(number, rate(random)));
    }
    let above = random
        .chance(10)
        .then(|| random.under(usize::from(sessions)));
    for number in 0..sessions {
        let access = rate(random);
        let maximum = if above == Some(usize::from(number)) {
            maximum_above(access, |count| random.under(count))
        } else if random.chance(60) {
            0
        } else {
            rate(random).min(access)
        };
        bytes.extend(session(number, access, maximum, &random.path(&on)));
    }
    if random.chance(25) {
        let place = random.under(bytes.len());
        bytes[place] = random.one_of(&[0, 1, 2, 3, 9, 31, 32, 63, 64, 255]);
    }
    Input::Calculation(bytes)
}

/// Small networks, networks of 32 sessions, and networks of 64 links and 32 sessions.
pub fn calculations() -> Vec<Input> {
    let mut random = Random::new(1);
    let mut inputs = Vec::new();
    for _ in 0..30 {
        let (links, sessions) = (1 + random.under(8), 1 + random.under(12) as u8);
        inputs.push(declarations(&mut random, links, sessions));
    }
    for links in [3, 6, 9, 12, 24, 64, 64] {
        inputs.push(declarations(&mut random, links, 32));
    }
    inputs
}

// Runs the records of one event and keeps the bytes of those that are taken. The bytes that are
// refused are given back, if any.
fn offer<'a>(machine: &mut Machine, event: &'a [u8]) -> Option<&'a [u8]> {
    let refused = run(&mut machine.table, event).refused;
    let end = refused.map_or(event.len(), |refused| refused.place as usize);
    let (taken, left) = event.split_at(end);
    machine.bytes.extend(taken);
    refused.map(|_| left)
}

// How a run ends: with packets in flight, with none, or with a refused record and one more after it.
#[derive(Clone, Copy)]
enum End {
    InFlight,
    AtRest,
    Refused,
}

// The links, random events of which only what is taken is kept, and the end.
fn run_of(world: &mut World, events: usize, end: End) -> Input {
    let mut machine = Machine::new();
    for number in world.links.clone() {
        machine.take(link(number, world.rate()));
    }
    for _ in 0..events {
        let event = world.event(&machine.table);
        offer(&mut machine, &event);
    }
    match end {
        End::InFlight => {}
        End::AtRest => deliver_all(world, &mut machine),
        End::Refused => meet_a_refusal(world, &mut machine),
    }
    Input::Run(machine.bytes)
}

fn deliver_all(world: &mut World, machine: &mut Machine) {
    while let Some(record) = world.delivery(&machine.table.packets) {
        machine.take(record);
    }
}

fn meet_a_refusal(world: &mut World, machine: &mut Machine) {
    loop {
        let event = world.event(&machine.table);
        if let Some(left) = offer(machine, &event) {
            machine.bytes.extend(left);
            machine.bytes.extend(deliver(0));
            return;
        }
    }
}

// Seeds of runs that tell a rule of Figures 2 to 4 from one that is nearly the same, two for each.
const TELLING: [[usize; 2]; 7] = [
    // Figure 2, line 5: a member of F with exactly B returns to R.
    [1352, 2972],
    // Lines 6 to 8: only the highest of F return, and B is worked out anew.
    [3032, 2115],
    // Lines 15 and 35: where the packet's rate equals B, it keeps the name that it has.
    [7290, 5189],
    // Lines 42 and 43: a Bottleneck goes on only where its session is in R.
    [2340, 2700],
    // Figure 3, lines 11 to 18: a change forgets that a rate was assigned.
    [3344, 8533],
    // Lines 31 and 42: the packet says whether the rate is D.
    [7496, 2940],
    // Figure 4, lines 9 and 10: an Update where no link was a bottleneck.
    [1080, 10_955],
];

/// Runs of a few links and sessions, and runs of up to 10 links and 32 sessions.
pub fn runs() -> Vec<Input> {
    let ends = [End::AtRest, End::Refused, End::InFlight];
    let seeded = |seed: usize, links, sessions, events| {
        let mut world = world(Random::new(seed as u64), links, sessions);
        run_of(&mut world, events, ends[seed % ends.len()])
    };
    let small = (0..32).chain(TELLING.into_iter().flatten());
    let small = small.map(|seed| seeded(seed, 4, 5, 20 + seed % 45));
    let large = (100..108).map(|seed| seeded(seed, 10, 32, 100));
    small.chain(large).collect()
}
