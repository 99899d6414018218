//! Runs in which the list of packets is nearly full, so that refusal 13 is met by events of every kind.

use second::machine::run;
use second::machine::table::Packet;

use crate::difference::Difference;
use crate::pair::Pair;
use crate::random::Random;
use crate::tally::Tally;
use second::making::{change, deliver, is_in_turn, leave, link, session};

/// Many sessions at rest on one link. A few of them change again and again, and only their packets
/// are delivered; what the link tells the others stays in flight. Then any events.
pub fn crowded(random: &mut Random, tally: &mut Tally) -> Result<(), Difference> {
    let sessions = random.between(12, 32);
    let mut pair = at_rest(sessions, random, tally)?;
    let busy = random.between(1, 3) as u64;
    for _ in 0..60 {
        if pair.second().packets.len() > 220 {
            break;
        }
        let number = random.under(busy as usize) as u8;
        let mut records = change(number, 0);
        records.extend(deliver_of(&pair, &records, |packet| packet.session < busy));
        pair.run(&records, tally)?;
    }
    for _ in 0..60 {
        let packets = &pair.second().packets;
        let number = random.under(sessions + 2).min(31) as u8;
        let record = match random.under(8) {
            0 => leave(number),
            // The access rate is 100: above it 16 comes before 10 and 13 (02, §1).
            1 | 2 => change(number, random.one_of(&[0, 1, 2, 100, 101])),
            3 => session(number, 100, random.one_of(&[0, 100, 101]), &[0]),
            // The latest packets are those that go on; the earlier ones are mostly Bottlenecks.
            4..=6 => deliver(packets.len().saturating_sub(1 + random.under(6))),
            _ => deliver(random.under(packets.len() + 1)),
        };
        pair.run(&record, tally)?;
    }
    Ok(())
}

// This many sessions over link 0, and perhaps over link 1, each told its rate.
fn at_rest(sessions: usize, random: &mut Random, tally: &mut Tally) -> Result<Pair, Difference> {
    let mut pair = Pair::empty();
    let mut records = [link(0, random.between(1, 100) as u32), link(1, 1_000_000)].concat();
    for number in 0..sessions {
        let path: &[u8] = random.one_of(&[&[0], &[0, 1], &[1, 0]]);
        records.extend(session(number as u8, 100, 0, path));
    }
    records.extend(deliver_of(&pair, &records, |_| true));
    pair.run(&records, tally)?;
    Ok(pair)
}

// Deliveries of the chosen packets after these records, the earliest sent first, until none is left.
fn deliver_of(pair: &Pair, after: &[u8], chosen: impl Fn(&Packet) -> bool) -> Vec<u8> {
    let mut scratch = pair.second().clone();
    let mut bytes = Vec::new();
    let mut refused = run(&mut scratch, after).refused;
    while refused.is_none() && bytes.len() < 20_000 {
        let packets = &scratch.packets;
        let next = (0..packets.len())
            .find(|&position| chosen(&packets[position]) && is_in_turn(packets, position));
        let Some(position) = next else { break };
        let record = deliver(position);
        refused = run(&mut scratch, &record).refused;
        bytes.extend(record);
    }
    bytes
}
