//! One record's event on the table: refusals 7 to 13 in number order, with 16 where 02, §1 puts it,
//! and only then the change. The parts that a step changes are worked out as copies and put back
//! together, so that a refused record leaves the table as it was.

use super::parts::{link_of, message_of, packet_of, put_link, source_numbers, source_of};
use super::table::{Link, Packet, Source, Table, ACTIVE, LEFT, NOT_IN_F, YES};
use crate::records::{within_access, Record, Refusal, PACKETS};
use crate::tasks::source::Source as SourceTask;
use crate::tasks::{destination, Message, Sent, Way};

/// Takes one record that passed refusals 2 to 6.
pub fn take(table: &mut Table, record: Record) -> Result<(), Refusal> {
    match record {
        Record::Link { link, capacity } => declare(table, link, capacity),
        Record::Session {
            session,
            access,
            maximum,
            path,
        } => join(table, session, (access, maximum), &path),
        Record::Leave { session } => leave(table, session),
        Record::Change { session, maximum } => change(table, session, maximum),
        Record::Deliver { position } => deliver(table, position),
    }
}

// A new link may be declared at any time.
fn declare(table: &mut Table, number: usize, capacity: u64) -> Result<(), Refusal> {
    let link = &mut table.links[number];
    if link.declared == YES {
        return Err(Refusal::AlreadyThere);
    }
    *link = Link {
        declared: YES,
        capacity,
        ..*link
    };
    Ok(())
}

// 001, Figure 3, lines 3 to 6. Refusal 16 is tried directly after 7 (02, §1).
fn join(
    table: &mut Table,
    session: usize,
    (access, maximum): (u64, u64),
    path: &[usize],
) -> Result<(), Refusal> {
    if table.sources[session].is_active() {
        return Err(Refusal::AlreadyThere);
    }
    within_access(access, maximum)?;
    if path.iter().any(|&on| table.links[on].declared != YES) {
        return Err(Refusal::LinkUndeclared);
    }
    if in_flight(table, session) {
        return Err(Refusal::StillInFlight);
    }
    let (task, message) = SourceTask::join(access, maximum);
    let packets = with_sent(&table.packets, [from_source(session, message)])?;
    let path: Vec<u64> = path.iter().map(|&on| on as u64).collect();
    table.sources[session] = source_numbers(&task, &path);
    table.packets = packets;
    Ok(())
}

// 001, Figure 3, lines 8 and 9: R and F of the source are empty then. The entries stay until the
// Leave reaches them, link by link.
fn leave(table: &mut Table, session: usize) -> Result<(), Refusal> {
    if !table.sources[session].is_active() {
        return Err(Refusal::NotActive);
    }
    table.packets = with_sent(&table.packets, [from_source(session, Message::Leave)])?;
    let source = &mut table.sources[session];
    source.standing = LEFT;
    source.set = NOT_IN_F;
    Ok(())
}

// 001, Figure 3, lines 11 to 18. Refusal 16 is tried directly after 9, against the access rate with
// which the session joined (02, §1).
fn change(table: &mut Table, session: usize, maximum: u64) -> Result<(), Refusal> {
    let source = table.sources[session];
    if !source.is_active() {
        return Err(Refusal::NotActive);
    }
    within_access(source.access, maximum)?;
    let mut task = source_of(&source);
    let sent = task.change(maximum);
    let sent = sent.map(|message| from_source(session, message));
    table.packets = with_sent(&table.packets, sent)?;
    put_source(table, session, &task);
    Ok(())
}

// Takes the packet out of the list, later ones move up, and what the step sends goes to the end.
fn deliver(table: &mut Table, position: usize) -> Result<(), Refusal> {
    let packet = in_turn(&table.packets, position)?;
    let mut rest = table.packets.clone();
    rest.remove(position);
    let session = packet.session as usize;
    let path = table.sources[session].path_links();
    let destination = path.len() as u64 + 1;
    match packet.hop {
        0 => deliver_to_source(table, rest, packet),
        hop if hop == destination => deliver_to_destination(table, rest, packet),
        hop => {
            let link = path[hop as usize - 1] as usize;
            deliver_to_link(table, rest, packet, link)
        }
    }
}

// Refusal 11: out of turn if an earlier packet has the same session, hop and direction.
fn in_turn(packets: &[Packet], position: usize) -> Result<Packet, Refusal> {
    let packet = *packets.get(position).ok_or(Refusal::NoSuchTurn)?;
    let ahead = |earlier: &Packet| {
        earlier.session == packet.session
            && earlier.hop == packet.hop
            && earlier.direction == packet.direction
    };
    if packets[..position].iter().any(ahead) {
        return Err(Refusal::NoSuchTurn);
    }
    Ok(packet)
}

// Any packet that reaches a source which has left is dropped (01, "Added here").
fn deliver_to_source(table: &mut Table, rest: Vec<Packet>, packet: Packet) -> Result<(), Refusal> {
    let session = packet.session as usize;
    let source = table.sources[session];
    if source.standing != ACTIVE {
        table.packets = rest;
        return Ok(());
    }
    let mut task = source_of(&source);
    let sent = task.take(message_of(&packet));
    let sent = sent.map(|message| from_source(session, message));
    table.packets = with_sent(&rest, sent)?;
    put_source(table, session, &task);
    Ok(())
}

fn deliver_to_destination(
    table: &mut Table,
    rest: Vec<Packet>,
    packet: Packet,
) -> Result<(), Refusal> {
    let answer = destination::answer(message_of(&packet));
    let session = packet.session as usize;
    let sent = answer.map(|message| packet_of(session, packet.hop - 1, message));
    table.packets = with_sent(&rest, sent)?;
    Ok(())
}

// Refusal 12 comes out of the link task, before 13.
fn deliver_to_link(
    table: &mut Table,
    rest: Vec<Packet>,
    packet: Packet,
    number: usize,
) -> Result<(), Refusal> {
    let mut link = link_of(table, number);
    let sent = link.take(packet.session as usize, message_of(&packet))?;
    let sent = sent
        .into_iter()
        .filter_map(|sent| from_link(&table.sources, number, sent));
    let packets = with_sent(&rest, sent)?;
    put_link(table, &link);
    table.packets = packets;
    Ok(())
}

fn from_source(session: usize, message: Message) -> Packet {
    packet_of(session, 1, message)
}

// A packet sent by a link goes to the next hop of its own session's path, one up or one down. An
// entry whose session's path does not have this link has no such hop, and nothing is sent: that is
// met only from a table handed in, after a session joined anew past an entry left behind.
fn from_link(sources: &[Source], link: usize, sent: Sent) -> Option<Packet> {
    let here = sources[sent.session].hop_of(link)?;
    let hop = match sent.message.way() {
        Way::Down => here + 1,
        Way::Up => here - 1,
    };
    Some(packet_of(sent.session, hop, sent.message))
}

// Refusal 13.
fn with_sent(
    rest: &[Packet],
    sent: impl IntoIterator<Item = Packet>,
) -> Result<Vec<Packet>, Refusal> {
    let mut packets = rest.to_vec();
    packets.extend(sent);
    if packets.len() > PACKETS {
        return Err(Refusal::TooManyPackets);
    }
    Ok(packets)
}

fn put_source(table: &mut Table, session: usize, task: &SourceTask) {
    let path = table.sources[session].path_links().to_vec();
    table.sources[session] = source_numbers(task, &path);
}

// In flight means in the list.
fn in_flight(table: &Table, session: usize) -> bool {
    let of_session = |packet: &Packet| packet.session == session as u64;
    table.packets.iter().any(of_session)
}
