//! The entry points of include/umbraconga.h, each behind a function that is safe to call. All
//! `unsafe` of this package stands here.
//!
//! Why every call is sound: the library reads and writes only what the pointers and lengths say,
//! keeps no pointer, and never unwinds. The pointers come from Rust references, so they are aligned,
//! not null (also for an empty slice), and live for the whole call; what the library writes is
//! borrowed mutably, so nothing else reads it and no two of the slices overlap. All words are plain
//! integers, of which every value is valid.

#![allow(unsafe_code)]

use crate::TABLE_WORDS;

/// The words of a table.
pub type Words = [u64; TABLE_WORDS];

mod entry {
    use super::Words;

    extern "C" {
        pub fn umbraconga_calculate(
            records: *const u8,
            records_len: usize,
            nums: *mut u64,
            nums_len: usize,
            dens: *mut u64,
            dens_len: usize,
            places: *mut u64,
            places_len: usize,
            report: *mut [u64; 4],
        );
        pub fn umbraconga_empty(table: *mut Words);
        pub fn umbraconga_run(
            table: *mut Words,
            records: *const u8,
            records_len: usize,
            report: *mut [u64; 3],
        );
        pub fn umbraconga_settled(table: *const Words) -> u64;
        pub fn umbraconga_in_flight(table: *const Words) -> u64;
        pub fn umbraconga_told(table: *const Words, session: u32, report: *mut [u64; 3]);
        pub fn umbraconga_records(
            table: *const Words,
            out: *mut u8,
            out_len: usize,
            report: *mut [u64; 3],
        );
    }
}

/// The report: the refusal's number or 0, its place, the word of links, the word of sessions.
pub fn calculate(
    records: &[u8],
    nums: &mut [u64],
    dens: &mut [u64],
    places: &mut [u64],
) -> [u64; 4] {
    let mut report = [0; 4];
    // SAFETY: each pointer comes with the length of its own slice, whatever that is; the library
    // tests the lengths before it writes. The report has the four words that the header asks for.
    unsafe {
        entry::umbraconga_calculate(
            records.as_ptr(),
            records.len(),
            nums.as_mut_ptr(),
            nums.len(),
            dens.as_mut_ptr(),
            dens.len(),
            places.as_mut_ptr(),
            places.len(),
            &mut report,
        );
    }
    report
}

/// Makes a table the empty one.
pub fn empty(table: &mut Words) {
    // SAFETY: the table has all its words, by its type.
    unsafe { entry::umbraconga_empty(table) }
}

/// The report: the refusal's number or 0, its place, how many records were taken.
pub fn run(table: &mut Words, records: &[u8]) -> [u64; 3] {
    let mut report = [0; 3];
    // SAFETY: the table has all its words, by its type; the records come with their length, and
    // the report has the three words that the header asks for.
    unsafe { entry::umbraconga_run(table, records.as_ptr(), records.len(), &mut report) }
    report
}

/// 1 yes, 0 no, or the number of the refusal.
pub fn settled(table: &Words) -> u64 {
    // SAFETY: the table has all its words, by its type, and is only read.
    unsafe { entry::umbraconga_settled(table) }
}

/// How many packets the table says are in flight.
pub fn in_flight(table: &Words) -> u64 {
    // SAFETY: the table has all its words, by its type, and is only read.
    unsafe { entry::umbraconga_in_flight(table) }
}

/// The report: whether the session is active, and the rate last told, 0 and 0 where none was.
pub fn told(table: &Words, session: u32) -> [u64; 3] {
    let mut report = [0; 3];
    // SAFETY: the table has all its words, by its type, and is only read; every number of a session
    // is taken, and the report has the three words that the header asks for.
    unsafe { entry::umbraconga_told(table, session, &mut report) }
    report
}

/// The report: the refusal's number or 0, its place, how many bytes were written.
pub fn records(table: &Words, out: &mut [u8]) -> [u64; 3] {
    let mut report = [0; 3];
    // SAFETY: the table has all its words, by its type, and is only read; the slice comes with its
    // length, which the library tests before it writes, and the report has the three words that the
    // header asks for.
    unsafe { entry::umbraconga_records(table, out.as_mut_ptr(), out.len(), &mut report) }
    report
}
