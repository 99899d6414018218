//! The records (01, "Records"), the limits (01, "What the order covers") and the refusal numbers
//! (01, "What is turned away", and 02). Reading one record tests refusals 2 to 6, which need no table.

/// Links are numbered 0 to 63.
pub const LINKS: usize = 64;
/// Sessions are numbered 0 to 31.
pub const SESSIONS: usize = 32;
/// A path has 1 to 8 links.
pub const PATH_LINKS: usize = 8;
/// Capacity, access rate and maximum go up to 1,000,000 kbit/s.
pub const RATE_LIMIT: u64 = 1_000_000;
/// At most 256 packets are in flight.
pub const PACKETS: usize = 256;
/// An input has up to 32,768 bytes.
pub const INPUT_BYTES: usize = 32_768;
/// The machine's denominators are limited to 1,048,576 (01, "Fractions").
pub const DENOMINATOR_LIMIT: u64 = 1_048_576;
/// Unused link bytes of a path are 255.
pub const UNUSED: u8 = 255;
/// The number that stands for a session's own line where a link is named: one past the links.
pub const OWN: u64 = 64;

/// The refusals of documents 01 and 02, each with its number.
#[derive(Clone, Copy, Debug, PartialEq, Eq)]
pub enum Refusal {
    /// Input longer than 32,768 bytes.
    InputTooLong = 1,
    /// Kind not taken by this call.
    KindNotTaken = 2,
    /// Record cut off by the end.
    CutOff = 3,
    /// Link over 63 or session over 31 (not path bytes).
    NumberTooHigh = 4,
    /// Capacity or access 0 or over 1,000,000; maximum over 1,000,000.
    RateOutsideRange = 5,
    /// Path length 0 or over 8; used byte over 63; link twice; unused byte not 255.
    PathDamaged = 6,
    /// Link already declared, or session already active.
    AlreadyThere = 7,
    /// Path names an undeclared link.
    LinkUndeclared = 8,
    /// Leave or change of a session not active.
    NotActive = 9,
    /// Join of a session that has left and still has a packet in flight.
    StillInFlight = 10,
    /// Position past the list's end, or out of turn.
    NoSuchTurn = 11,
    /// A partial sum or B has a denominator over 1,048,576.
    TooFine = 12,
    /// More than 256 packets after the step.
    TooManyPackets = 13,
    /// A table handed in is damaged.
    TableDamaged = 14,
    /// A lent answer slice has fewer than 32 places.
    SliceTooShort = 15,
    /// A nonzero maximum above the session's access rate (02, §1).
    MaximumAboveAccess = 16,
    /// A lent slice is shorter than the output (02, §3).
    ShorterThanOutput = 17,
}

impl Refusal {
    /// The number that the documents give this refusal.
    pub fn number(self) -> u64 {
        self as u64
    }

    /// This refusal of the record whose kind byte stands at `place`.
    pub fn at(self, place: usize) -> Refused {
        Refused {
            number: self.number(),
            place: place as u64,
        }
    }
}

/// What a refused call returns: the number, and the place of the record's kind byte (0 for 1, 14,
/// 15 and 17).
#[derive(Clone, Copy, Debug, PartialEq, Eq)]
pub struct Refused {
    /// 1 to 17.
    pub number: u64,
    /// Counted in bytes from the start of the input.
    pub place: u64,
}

/// The kinds of records.
#[derive(Clone, Copy, Debug, PartialEq, Eq)]
pub enum Kind {
    /// Kind 1: declare a link.
    Link,
    /// Kind 2: a session; joins in the machine.
    Session,
    /// Kind 3: leave.
    Leave,
    /// Kind 4: change.
    Change,
    /// Kind 5: deliver.
    Deliver,
}

impl Kind {
    /// The kinds that the calculation takes.
    pub const CALCULATION: [Kind; 2] = [Kind::Link, Kind::Session];
    /// The kinds that the machine takes.
    pub const MACHINE: [Kind; 5] = [
        Kind::Link,
        Kind::Session,
        Kind::Leave,
        Kind::Change,
        Kind::Deliver,
    ];

    fn of_byte(byte: u8) -> Option<Kind> {
        match byte {
            1 => Some(Kind::Link),
            2 => Some(Kind::Session),
            3 => Some(Kind::Leave),
            4 => Some(Kind::Change),
            5 => Some(Kind::Deliver),
            _ => None,
        }
    }

    // The length of the body, which the kind fixes.
    fn body_length(self) -> usize {
        match self {
            Kind::Link => 1 + 4,
            Kind::Session => 1 + 4 + 4 + 1 + PATH_LINKS,
            Kind::Leave => 1,
            Kind::Change => 1 + 4,
            Kind::Deliver => 2,
        }
    }
}

/// One record that passed refusals 2 to 6.
#[derive(Clone, Debug, PartialEq, Eq)]
pub enum Record {
    /// Declares a link.
    Link {
        /// 0 to 63.
        link: usize,
        /// 1 to 1,000,000.
        capacity: u64,
    },
    /// Declares a session, or makes it join.
    Session {
        /// 0 to 31.
        session: usize,
        /// 1 to 1,000,000.
        access: u64,
        /// 1 to 1,000,000, or 0 for no maximum.
        maximum: u64,
        /// 1 to 8 different links, each 0 to 63.
        path: Vec<usize>,
    },
    /// The session leaves.
    Leave {
        /// 0 to 31.
        session: usize,
    },
    /// The session has a new maximum.
    Change {
        /// 0 to 31.
        session: usize,
        /// 1 to 1,000,000, or 0 for no maximum.
        maximum: u64,
    },
    /// The packet at this position of the list arrives.
    Deliver {
        /// Any number of two bytes.
        position: usize,
    },
}

/// A session's own limit D: the smaller of its access rate and its maximum, or the access rate
/// where there is no maximum (01, "The direct calculation"). A maximum of 0 is no rate.
pub fn own_limit(access: u64, maximum: u64) -> u64 {
    if maximum == 0 {
        access
    } else {
        access.min(maximum)
    }
}

/// Whether a maximum is a nonzero one larger than the session's access rate, which is a mistake (02,
/// §1). One that equals the access rate is none, and 0 means that there is no maximum.
pub fn is_above_access(access: u64, maximum: u64) -> bool {
    maximum != 0 && maximum > access
}

/// Refusal 16.
pub fn within_access(access: u64, maximum: u64) -> Result<(), Refusal> {
    if is_above_access(access, maximum) {
        return Err(Refusal::MaximumAboveAccess);
    }
    Ok(())
}

/// Reads the record whose kind byte stands at `place`: the record and the place after it, or the
/// first of refusals 2 to 6 in number order.
pub fn read(input: &[u8], place: usize, taken: &[Kind]) -> Result<(Record, usize), Refusal> {
    let kind_byte = *input.get(place).ok_or(Refusal::CutOff)?;
    let kind = Kind::of_byte(kind_byte)
        .filter(|kind| taken.contains(kind))
        .ok_or(Refusal::KindNotTaken)?;
    let start = place + 1;
    let end = start + kind.body_length();
    let body = input.get(start..end).ok_or(Refusal::CutOff)?;
    let record = match kind {
        Kind::Link => link_record(body)?,
        Kind::Session => session_record(body)?,
        Kind::Leave => leave_record(body)?,
        Kind::Change => change_record(body)?,
        Kind::Deliver => deliver_record(body),
    };
    Ok((record, end))
}

fn link_record(body: &[u8]) -> Result<Record, Refusal> {
    let link = number_under(body[0], LINKS)?;
    let capacity = positive_rate(big_endian(&body[1..5]))?;
    Ok(Record::Link { link, capacity })
}

fn session_record(body: &[u8]) -> Result<Record, Refusal> {
    let session = number_under(body[0], SESSIONS)?;
    let access = positive_rate(big_endian(&body[1..5]))?;
    let maximum = rate_or_none(big_endian(&body[5..9]))?;
    let path = path_links(usize::from(body[9]), &body[10..18])?;
    Ok(Record::Session {
        session,
        access,
        maximum,
        path,
    })
}

fn leave_record(body: &[u8]) -> Result<Record, Refusal> {
    let session = number_under(body[0], SESSIONS)?;
    Ok(Record::Leave { session })
}

fn change_record(body: &[u8]) -> Result<Record, Refusal> {
    let session = number_under(body[0], SESSIONS)?;
    let maximum = rate_or_none(big_endian(&body[1..5]))?;
    Ok(Record::Change { session, maximum })
}

// Every position of two bytes is read; whether the list has it is refusal 11.
fn deliver_record(body: &[u8]) -> Record {
    Record::Deliver {
        position: big_endian(&body[0..2]) as usize,
    }
}

// Numbers are big-endian.
fn big_endian(bytes: &[u8]) -> u64 {
    bytes
        .iter()
        .fold(0, |number, &byte| number * 256 + u64::from(byte))
}

// Refusal 4.
fn number_under(byte: u8, count: usize) -> Result<usize, Refusal> {
    let number = usize::from(byte);
    if number < count {
        Ok(number)
    } else {
        Err(Refusal::NumberTooHigh)
    }
}

// Refusal 5 for a capacity or an access rate.
fn positive_rate(rate: u64) -> Result<u64, Refusal> {
    if rate == 0 {
        return Err(Refusal::RateOutsideRange);
    }
    rate_or_none(rate)
}

// Refusal 5 for a maximum, where 0 means that there is none.
fn rate_or_none(rate: u64) -> Result<u64, Refusal> {
    if rate > RATE_LIMIT {
        return Err(Refusal::RateOutsideRange);
    }
    Ok(rate)
}

// Refusal 6: the used links of a path, where all eight bytes are as they should be.
fn path_links(length: usize, bytes: &[u8]) -> Result<Vec<usize>, Refusal> {
    if length == 0 || length > PATH_LINKS {
        return Err(Refusal::PathDamaged);
    }
    let (used, unused) = bytes.split_at(length);
    let over = used.iter().any(|&byte| usize::from(byte) >= LINKS);
    let twice = (1..length).any(|place| used[..place].contains(&used[place]));
    let filled = unused.iter().any(|&byte| byte != UNUSED);
    if over || twice || filled {
        return Err(Refusal::PathDamaged);
    }
    Ok(used.iter().map(|&byte| usize::from(byte)).collect())
}
