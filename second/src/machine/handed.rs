//! Refusal 14: whether a table handed in is sound (01, "What is turned away", 14). The clauses are
//! tested in the order of the sentence, each over the whole table, so that a later one may rely on
//! the ones before it; the clause that 02, §1 adds comes after them.

use super::parts::link_of;
use super::table::{
    Packet, Source, Table, BOTTLENECK, DOWN, IN_F, JOIN, LEAVE, LEFT, NEVER_JOINED, PROBE,
    RESPONSE, SET_BOTTLENECK, TAU_BOTTLENECK, UP, UPDATE, WAITING_RESPONSE, YES,
};
use crate::fraction::{common_divisor, Fraction};
use crate::records::{
    is_above_access, DENOMINATOR_LIMIT, LINKS, OWN, PACKETS, PATH_LINKS, RATE_LIMIT, SESSIONS,
};

/// The clause of 14's sentence, or of 02's addition to it, that a table fails first.
#[derive(Clone, Copy, Debug, PartialEq, Eq)]
pub enum Fault {
    /// A field outside its range, the number of packets included.
    FieldOutsideRange,
    /// A rate not in lowest terms.
    RateNotInLowestTerms,
    /// A path over an undeclared link.
    PathOverUndeclaredLink,
    /// A path over one link twice.
    PathOverLinkTwice,
    /// A packet off its path.
    PacketOffItsPath,
    /// A packet going the way its kind never goes.
    PacketGoingTheWrongWay,
    /// A session in both R and F of a link.
    SessionInBothSets,
    /// An entry off its session's path.
    EntryOffItsPath,
    /// An entry of a session that is neither active nor has a Leave still to reach that link.
    EntryOfAGoneSession,
    /// A link whose F sums past C.
    SumPastCapacity,
    /// A link whose sums or B meet 12.
    SumsTooFine,
    /// A nonzero maximum larger than its session's access rate (02, §1).
    MaximumAboveAccess,
}

/// Whether the table is one that 14 lets pass, or the clause that it fails.
pub fn passes_14(table: &Table) -> Result<(), Fault> {
    let clauses = [
        (
            fields_in_range as fn(&Table) -> bool,
            Fault::FieldOutsideRange,
        ),
        (rates_in_lowest_terms, Fault::RateNotInLowestTerms),
        (paths_over_declared_links, Fault::PathOverUndeclaredLink),
        (paths_over_links_once, Fault::PathOverLinkTwice),
        (packets_on_their_paths, Fault::PacketOffItsPath),
        (packets_going_their_way, Fault::PacketGoingTheWrongWay),
        (sessions_in_one_set, Fault::SessionInBothSets),
        (entries_on_their_paths, Fault::EntryOffItsPath),
        (entries_of_present_sessions, Fault::EntryOfAGoneSession),
    ];
    for (holds, fault) in clauses {
        if !holds(table) {
            return Err(fault);
        }
    }
    (0..LINKS).try_for_each(|link| sums_fit(table, link))?;
    if !maxima_within_access(table) {
        return Err(Fault::MaximumAboveAccess);
    }
    Ok(())
}

// A field outside its range.
fn fields_in_range(table: &Table) -> bool {
    let links = table.links.iter().all(|link| {
        let words = link.r < 1 << SESSIONS && link.f < 1 << SESSIONS;
        let capacity = link.declared != YES || positive_rate(link.capacity);
        link.declared <= YES && words && capacity
    });
    links
        && existing_entries(table)
            .all(|(link, session)| table.links[link].entries[session].state <= WAITING_RESPONSE)
        && table.sources.iter().all(source_in_range)
        && table.packets.len() <= PACKETS
        && table.packets.iter().all(packet_in_range)
        && rates(table).all(|(num, den)| rate_in_range(num, den))
}

fn source_in_range(source: &Source) -> bool {
    if source.standing == NEVER_JOINED {
        return true;
    }
    let flags = [source.upd_rcv, source.bneck_rcv, source.told];
    source.standing <= LEFT
        && positive_rate(source.access)
        && source.maximum <= RATE_LIMIT
        && (1..=PATH_LINKS as u64).contains(&source.length)
        && source.path_links().iter().all(|&on| on < LINKS as u64)
        && source.set <= IN_F
        && source.state <= WAITING_RESPONSE
        && flags.iter().all(|&flag| flag <= YES)
}

// The fields that every packet has, and those that this one's kind carries. The longest path has
// its destination at hop 9.
fn packet_in_range(packet: &Packet) -> bool {
    let carried = match packet.kind {
        JOIN | PROBE => packet.named <= OWN,
        RESPONSE => packet.named <= OWN && packet.tau <= TAU_BOTTLENECK,
        SET_BOTTLENECK => packet.beta <= YES,
        UPDATE | BOTTLENECK | LEAVE => true,
        _ => false,
    };
    carried
        && packet.session < SESSIONS as u64
        && packet.hop <= PATH_LINKS as u64 + 1
        && packet.direction <= UP
}

fn positive_rate(rate: u64) -> bool {
    (1..=RATE_LIMIT).contains(&rate)
}

// Rates: 0 to 1,000,000, denominator to 1,048,576.
fn rate_in_range(num: u64, den: u64) -> bool {
    (1..=DENOMINATOR_LIMIT).contains(&den) && num <= RATE_LIMIT * den
}

fn rates_in_lowest_terms(table: &Table) -> bool {
    rates(table).all(|(num, den)| common_divisor(u128::from(num), u128::from(den)) == 1)
}

// Every rate that the table has: of entries, of sources, last told, and of the packets that carry
// one.
fn rates(table: &Table) -> impl Iterator<Item = (u64, u64)> + '_ {
    let of_entries = existing_entries(table).map(|(link, session)| {
        let entry = table.links[link].entries[session];
        (entry.num, entry.den)
    });
    let joined = || joined_sources(table);
    let held = joined().map(|source| (source.num, source.den));
    let told = joined()
        .filter(|source| source.told == YES)
        .map(|source| (source.told_num, source.told_den));
    let of_packets = table
        .packets
        .iter()
        .filter(|packet| packet.carries_rate())
        .map(|packet| (packet.num, packet.den));
    of_entries.chain(held).chain(told).chain(of_packets)
}

// The sessions that have a path: active ones and those that have left.
fn joined_sources(table: &Table) -> impl Iterator<Item = &Source> {
    let joined = |source: &&Source| source.standing != NEVER_JOINED;
    table.sources.iter().filter(joined)
}

// Link and session of every entry that exists.
fn existing_entries(table: &Table) -> impl Iterator<Item = (usize, usize)> + '_ {
    let held_by = move |link: usize| {
        (0..SESSIONS)
            .filter(move |&session| table.links[link].holds(session))
            .map(move |session| (link, session))
    };
    (0..LINKS).flat_map(held_by)
}

fn paths_over_declared_links(table: &Table) -> bool {
    let declared = |&on: &u64| table.links[on as usize].declared == YES;
    joined_sources(table).all(|source| source.path_links().iter().all(declared))
}

fn paths_over_links_once(table: &Table) -> bool {
    joined_sources(table).all(|source| {
        let path = source.path_links();
        (1..path.len()).all(|place| !path[..place].contains(&path[place]))
    })
}

// On the way down a packet is about to reach hops 1 to n+1, on the way up 0 to n. A session that
// never joined has no path for a packet to be on.
fn packets_on_their_paths(table: &Table) -> bool {
    table.packets.iter().all(|packet| {
        let links = table.sources[packet.session as usize].path_links().len() as u64;
        let hops = if packet.direction == DOWN {
            1..=links + 1
        } else {
            0..=links
        };
        links > 0 && hops.contains(&packet.hop)
    })
}

// 001, section III.B.
fn packets_going_their_way(table: &Table) -> bool {
    table.packets.iter().all(|packet| match packet.kind {
        JOIN | PROBE | SET_BOTTLENECK | LEAVE => packet.direction == DOWN,
        RESPONSE | UPDATE | BOTTLENECK => packet.direction == UP,
        _ => false,
    })
}

fn sessions_in_one_set(table: &Table) -> bool {
    table.links.iter().all(|link| link.r & link.f == 0)
}

fn entries_on_their_paths(table: &Table) -> bool {
    existing_entries(table).all(|(link, session)| table.sources[session].hop_of(link).is_some())
}

fn entries_of_present_sessions(table: &Table) -> bool {
    existing_entries(table).all(|(link, session)| {
        table.sources[session].is_active() || leave_to_reach(table, link, session)
    })
}

// A Leave still to reach the link is at the link's hop or an earlier one.
fn leave_to_reach(table: &Table, link: usize, session: usize) -> bool {
    let Some(hop) = table.sources[session].hop_of(link) else {
        return false;
    };
    table
        .packets
        .iter()
        .any(|packet| packet.kind == LEAVE && packet.session == session as u64 && packet.hop <= hop)
}

// The last two clauses of the sentence. A sum past C is told only where the partial sums themselves
// pass, since beyond that limit they have no bound; both are 14.
fn sums_fit(table: &Table, number: usize) -> Result<(), Fault> {
    let link = link_of(table, number);
    let sum = link.sum_of_f().map_err(|_| Fault::SumsTooFine)?;
    if sum > Fraction::whole(link.capacity) {
        return Err(Fault::SumPastCapacity);
    }
    link.bottleneck_rate().map_err(|_| Fault::SumsTooFine)?;
    Ok(())
}

// 02, §1: of every session that has joined, active or left. Of one that never joined there is no
// maximum to look at.
fn maxima_within_access(table: &Table) -> bool {
    joined_sources(table).all(|source| !is_above_access(source.access, source.maximum))
}
