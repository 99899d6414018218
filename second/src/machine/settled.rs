//! The settled question (01, "Settled: five conditions").

use super::handed::passes_14;
use super::parts::{link_of, source_of};
use super::table::{Source, Table};
use crate::fraction::Fraction;
use crate::records::{Refusal, Refused, LINKS};
use crate::tasks::link::{Bound, Link};
use crate::tasks::{Set, State};

/// Whether the table is settled, exactly by the five conditions, or refusal 14.
pub fn settled(table: &Table) -> Result<bool, Refused> {
    if passes_14(table).is_err() {
        return Err(Refusal::TableDamaged.at(0));
    }
    let links: Vec<Link> = (0..LINKS).map(|number| link_of(table, number)).collect();
    // (a).
    let quiet = table.packets.is_empty();
    let balanced = links.iter().all(is_balanced);
    let at_rest = table
        .sources
        .iter()
        .enumerate()
        .filter(|(_, source)| source.is_active())
        .all(|(session, source)| is_at_rest(session, source, &links));
    Ok(quiet && balanced && at_rest)
}

// (c): every member of R has rate B, every member of F less; where R is empty B is above every
// rate, and the sum of F is at most C.
fn is_balanced(link: &Link) -> bool {
    let (Ok(sum), Ok(b)) = (link.sum_of_f(), link.bottleneck_rate()) else {
        return false;
    };
    sum <= Fraction::whole(link.capacity)
        && link.held.values().all(|entry| match entry.set {
            Set::R => Bound::Rate(entry.rate) == b,
            Set::F => Bound::Rate(entry.rate) < b,
        })
}

// (b), (d) and (e) for one active session. "Some link" of (d) is a link of the path; the session's
// own line is what "its rate equals D" speaks of.
fn is_at_rest(session: usize, source: &Source, links: &[Link]) -> bool {
    let at_source = source_of(source);
    let rate = at_source.rate;
    let mut restricted = false;
    for &on in source.path_links() {
        let Some(entry) = links[on as usize].held.get(&session) else {
            return false;
        };
        if entry.state != State::Idle || entry.rate != rate {
            return false;
        }
        restricted |= entry.set == Set::R;
    }
    let own_limit = at_source.own_limit();
    at_source.state == State::Idle
        && !at_source.upd_rcv
        && (restricted || rate == own_limit)
        && rate <= own_limit
        && at_source.told == Some(rate)
}
