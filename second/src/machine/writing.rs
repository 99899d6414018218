//! The records written out (02, §3): the present set of links and active sessions of a table, as
//! records of kinds 1 and 2. Packets and task states are not kept.

use super::handed::passes_14;
use super::table::{Link, Source, Table, YES};
use crate::records::{Refusal, Refused, LINKS, PATH_LINKS, SESSIONS, UNUSED};

/// The most bytes that are written: 64 links of 6 bytes each and 32 sessions of 19.
pub const OUTPUT_BYTES: usize = LINKS * 6 + SESSIONS * 19;

/// Writes the declared links and then the active sessions, both by rising number, into `output`, and
/// returns how many bytes were written. The bytes after them stay, and a refusal writes nothing. The
/// order of the tests is 14, then 17.
pub fn write(table: &Table, output: &mut [u8]) -> Result<u64, Refused> {
    if passes_14(table).is_err() {
        return Err(Refusal::TableDamaged.at(0));
    }
    let records = records_of(table);
    if output.len() < records.len() {
        return Err(Refusal::ShorterThanOutput.at(0));
    }
    output[..records.len()].copy_from_slice(&records);
    Ok(records.len() as u64)
}

// Sessions still leaving are not active, and not written.
fn records_of(table: &Table) -> Vec<u8> {
    let mut records = Vec::new();
    for (number, link) in table.links.iter().enumerate() {
        if link.declared == YES {
            records.extend(link_record(number, link));
        }
    }
    for (number, source) in table.sources.iter().enumerate() {
        if source.is_active() {
            records.extend(session_record(number, source));
        }
    }
    records
}

// Kind 1: link 1, capacity 4.
fn link_record(number: usize, link: &Link) -> Vec<u8> {
    let mut record = vec![1, number as u8];
    record.extend(four_bytes(link.capacity));
    record
}

// Kind 2: session 1, access 4, maximum 4, path length 1, eight link bytes, of which the unused are
// 255 whatever the table's places hold.
fn session_record(number: usize, source: &Source) -> Vec<u8> {
    let path = source.path_links();
    let mut links = [UNUSED; PATH_LINKS];
    for (byte, &on) in links.iter_mut().zip(path) {
        *byte = on as u8;
    }
    let mut record = vec![2, number as u8];
    record.extend(four_bytes(source.access));
    record.extend(four_bytes(source.maximum));
    record.push(path.len() as u8);
    record.extend(links);
    record
}

// Numbers are big-endian.
fn four_bytes(rate: u64) -> [u8; 4] {
    let rate = u32::try_from(rate).expect("14 shuts out rates over 1,000,000");
    rate.to_be_bytes()
}
