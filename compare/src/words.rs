//! Between the table's 9,153 words, as the proved library has them, and the table of `second`. Every
//! table of words has its counterpart, damaged ones included: a word outside its range becomes a
//! field outside its range.

use second::machine::table::{
    Entry, Link, Packet, Source, Table, ACTIVE, DOWN, LEFT, NEVER_JOINED, NO, RESPONSE,
    SET_BOTTLENECK, UP, YES,
};
use umbraconga::TABLE_WORDS;

/// The words of a table.
pub type Words = [u64; TABLE_WORDS];

/// A table has places for so many links,
pub const LINKS: usize = 64;
/// so many sessions,
pub const SESSIONS: usize = 32;
/// and so many packets in flight.
pub const PACKETS: usize = 256;
/// The place of the number of packets in flight.
pub const COUNT: usize = 9152;

/// The first word of a link: capacity, R, F.
pub const fn link_at(link: usize) -> usize {
    3 * link
}

/// The first word of an entry: state, numerator, denominator.
pub const fn entry_at(link: usize, session: usize) -> usize {
    192 + 3 * (SESSIONS * link + session)
}

/// The first word of a source, in the order that `Table` of `umbraconga` documents: 7 is whether a
/// rate was told, 10 and 11 the rate told, 12 the length of the path, 16 its first link.
pub const fn source_at(session: usize) -> usize {
    6336 + 24 * session
}

/// The first word of a packet: session, hop, down, kind, numerator, denominator, name, tau or beta.
pub const fn packet_at(place: usize) -> usize {
    7104 + 8 * place
}

/// The table of `second` for these words.
pub fn table_of(words: &Words) -> Table {
    let mut table = Table::empty();
    for (number, link) in table.links.iter_mut().enumerate() {
        *link = link_of(words, number);
    }
    for (number, source) in table.sources.iter_mut().enumerate() {
        *source = source_of(words, number);
    }
    let count = words[COUNT];
    table.packets = (0..PACKETS)
        .take_while(|&place| (place as u64) < count)
        .map(|place| packet_of(words, place))
        .collect();
    // More than there are places for: any packet more says so.
    if count > PACKETS as u64 {
        table.packets.push(Packet::BLANK);
    }
    table
}

fn link_of(words: &Words, number: usize) -> Link {
    let at = link_at(number);
    let mut link = Link {
        declared: if words[at] == 0 { NO } else { YES },
        capacity: words[at],
        r: words[at + 1],
        f: words[at + 2],
        ..Link::UNDECLARED
    };
    for (session, entry) in link.entries.iter_mut().enumerate() {
        let at = entry_at(number, session);
        *entry = Entry {
            state: words[at],
            num: words[at + 1],
            den: words[at + 2],
        };
    }
    link
}

// A session that is active without a path has a path of length 0, which is outside its range.
fn source_of(words: &Words, number: usize) -> Source {
    let word = |place: usize| words[source_at(number) + place];
    let standing = match (word(0), word(12)) {
        (0, 0) => NEVER_JOINED,
        (0, _) => LEFT,
        (1, _) => ACTIVE,
        _ => u64::MAX,
    };
    Source {
        standing,
        access: word(1),
        maximum: word(2),
        set: word(3),
        state: word(4),
        upd_rcv: word(5),
        bneck_rcv: word(6),
        told: word(7),
        num: word(8),
        den: word(9),
        told_num: word(10),
        told_den: word(11),
        length: word(12),
        path: std::array::from_fn(|place| word(16 + place)),
    }
}

// The last word is tau or beta, by the packet's kind; where it is not in use it goes to both.
fn packet_of(words: &Words, place: usize) -> Packet {
    let word = |field: usize| words[packet_at(place) + field];
    Packet {
        session: word(0),
        hop: word(1),
        direction: match word(2) {
            0 => UP,
            1 => DOWN,
            other => other,
        },
        kind: word(3),
        num: word(4),
        den: word(5),
        named: word(6),
        tau: word(7),
        beta: word(7),
    }
}

/// The words for a table of `second` whose fields are within their ranges. Words that are not in use
/// are 0.
pub fn words_of(table: &Table) -> Box<Words> {
    let mut words = zeros();
    for (number, link) in table.links.iter().enumerate() {
        let capacity = if link.declared == YES {
            link.capacity
        } else {
            0
        };
        put(&mut words, link_at(number), &[capacity, link.r, link.f]);
        for (session, entry) in link.entries.iter().enumerate() {
            let at = entry_at(number, session);
            put(&mut words, at, &[entry.state, entry.num, entry.den]);
        }
    }
    for (number, source) in table.sources.iter().enumerate() {
        put(&mut words, source_at(number), &source_words(source));
        put(&mut words, source_at(number) + 16, &source.path);
    }
    for (place, packet) in table.packets.iter().enumerate() {
        put(&mut words, packet_at(place), &packet_words(packet));
    }
    words[COUNT] = table.packets.len() as u64;
    clear_unused(&mut words);
    words
}

fn source_words(source: &Source) -> [u64; 13] {
    let joined = source.standing != NEVER_JOINED;
    [
        u64::from(source.is_active()),
        source.access,
        source.maximum,
        source.set,
        source.state,
        source.upd_rcv,
        source.bneck_rcv,
        source.told,
        source.num,
        source.den,
        source.told_num,
        source.told_den,
        if joined { source.length } else { 0 },
    ]
}

fn packet_words(packet: &Packet) -> [u64; 8] {
    [
        packet.session,
        packet.hop,
        u64::from(packet.direction == DOWN),
        packet.kind,
        packet.num,
        packet.den,
        packet.named,
        match packet.kind {
            SET_BOTTLENECK => packet.beta,
            _ => packet.tau,
        },
    ]
}

fn put(words: &mut Words, at: usize, values: &[u64]) {
    words[at..at + values.len()].copy_from_slice(values);
}

/// Makes every word 0 that is not in use.
pub fn clear_unused(words: &mut Words) {
    for (place, used) in in_use(words).iter().enumerate() {
        if !used {
            words[place] = 0;
        }
    }
}

/// Which words are in use. The others mean nothing: entries of sessions in neither R nor F, sources
/// of sessions that never joined but for the words `active` and `hops`, path places past the length,
/// a rate told where none was, packets past the count, and packet fields that the kind does not carry.
pub fn in_use(words: &Words) -> [bool; TABLE_WORDS] {
    let mut used = [false; TABLE_WORDS];
    let mut mark = |from: usize, count: usize| used[from..from + count].fill(true);
    mark(0, 3 * LINKS);
    mark(COUNT, 1);
    for link in 0..LINKS {
        let held = words[link_at(link) + 1] | words[link_at(link) + 2];
        for session in (0..SESSIONS).filter(|&session| held >> session & 1 == 1) {
            mark(entry_at(link, session), 3);
        }
    }
    for session in 0..SESSIONS {
        let at = source_at(session);
        let (told, hops) = (words[at + 7], words[at + 12]);
        mark(at, 1);
        mark(at + 12, 1);
        if hops > 0 {
            mark(at, 10);
            mark(at + 16, hops.min(8) as usize);
            if told == 1 {
                mark(at + 10, 2);
            }
        }
    }
    for place in (0..PACKETS).take_while(|&place| (place as u64) < words[COUNT]) {
        let at = packet_at(place);
        mark(at, 4);
        match words[at + 3] {
            RESPONSE => mark(at + 4, 4),
            SET_BOTTLENECK => mark(at + 7, 1),
            // Join and Probe.
            0 | 1 => mark(at + 4, 3),
            _ => {}
        }
    }
    used
}

/// A table of zeros: the empty one.
pub fn zeros() -> Box<Words> {
    let words = vec![0; TABLE_WORDS].into_boxed_slice();
    words.try_into().expect("it has the length of a table")
}
