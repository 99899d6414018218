//! The entry points of include/umbraconga.h through the meter, and what the linker puts in the place of
//! two of them. All `unsafe` of this package stands here and in `meter`.
//!
//! Why every call is sound: the library reads and writes only what the pointers and lengths say, keeps
//! no pointer, and never unwinds. The pointers come from Rust references, as in rust/src/raw.rs.

#![allow(unsafe_code)]

use std::slice::{from_raw_parts, from_raw_parts_mut};

use compare::words::Words;

use crate::calls;
use crate::meter::metered;

mod entry {
    extern "C" {
        // The library's own two, by the names under which the linker keeps them (build.rs).
        pub fn __real_umbraconga_calculate();
        pub fn __real_umbraconga_run();
        pub fn umbraconga_empty();
        pub fn umbraconga_in_flight();
        pub fn umbraconga_records();
        pub fn umbraconga_settled();
        pub fn umbraconga_told();
    }
}

/// The report of a calculation, and what it took.
pub fn calculate(
    records: &[u8],
    nums: &mut [u64],
    dens: &mut [u64],
    places: &mut [u64],
) -> ([u64; 4], usize) {
    let mut report = [0; 4];
    let arguments = [
        records.as_ptr() as usize,
        records.len(),
        nums.as_mut_ptr() as usize,
        nums.len(),
        dens.as_mut_ptr() as usize,
        dens.len(),
        places.as_mut_ptr() as usize,
        places.len(),
        report.as_mut_ptr() as usize,
    ];
    // SAFETY: each pointer comes with the length of its own slice, and the report has its four words.
    let depth = unsafe { metered(entry::__real_umbraconga_calculate, arguments) };
    (report, depth)
}

/// The report of a run, and what it took.
pub fn run(table: &mut Words, records: &[u8]) -> ([u64; 3], usize) {
    let mut report = [0; 3];
    let arguments = [
        table.as_mut_ptr() as usize,
        records.as_ptr() as usize,
        records.len(),
        report.as_mut_ptr() as usize,
    ];
    // SAFETY: the table has all its words, by its type; the records come with their length, and the
    // report has its three words.
    let depth = unsafe { metered(entry::__real_umbraconga_run, arguments) };
    (report, depth)
}

/// What the settled question took.
pub fn settled(table: &Words) -> usize {
    // SAFETY: the table has all its words, by its type, and is only read.
    unsafe { metered(entry::umbraconga_settled, [table.as_ptr() as usize]) }
}

/// What it took to say how many packets are in flight.
pub fn in_flight(table: &Words) -> usize {
    // SAFETY: the table has all its words, by its type, and is only read.
    unsafe { metered(entry::umbraconga_in_flight, [table.as_ptr() as usize]) }
}

/// What it took to say what a session was told.
pub fn told(table: &Words, session: u32) -> usize {
    let mut report = [0u64; 3];
    let (table, at) = (table.as_ptr() as usize, report.as_mut_ptr() as usize);
    // SAFETY: the table has all its words, by its type, and is only read; every number of a session is
    // taken, and the report has its three words.
    unsafe { metered(entry::umbraconga_told, [table, session as usize, at]) }
}

/// What it took to make a table the empty one.
pub fn empty(table: &mut Words) -> usize {
    // SAFETY: the table has all its words, by its type.
    unsafe { metered(entry::umbraconga_empty, [table.as_mut_ptr() as usize]) }
}

/// What it took to write the records of a table.
pub fn records(table: &Words, out: &mut [u8]) -> usize {
    let mut report = [0u64; 3];
    let arguments = [
        table.as_ptr() as usize,
        out.as_mut_ptr() as usize,
        out.len(),
        report.as_mut_ptr() as usize,
    ];
    // SAFETY: the table has all its words, by its type, and is only read; the slice comes with its
    // length, and the report has its three words.
    unsafe { metered(entry::umbraconga_records, arguments) }
}

// What the linker has rust/src/raw.rs call for `umbraconga_calculate`.
#[no_mangle]
unsafe extern "C" fn __wrap_umbraconga_calculate(
    records: *const u8,
    records_len: usize,
    nums: *mut u64,
    nums_len: usize,
    dens: *mut u64,
    dens_len: usize,
    places: *mut u64,
    places_len: usize,
    report: *mut [u64; 4],
) {
    // SAFETY: the pointers and lengths are those of slices that are borrowed for the whole call.
    *report = calls::calculate(
        from_raw_parts(records, records_len),
        from_raw_parts_mut(nums, nums_len),
        from_raw_parts_mut(dens, dens_len),
        from_raw_parts_mut(places, places_len),
    );
}

// What the linker has it call for `umbraconga_run`.
#[no_mangle]
unsafe extern "C" fn __wrap_umbraconga_run(
    table: *mut Words,
    records: *const u8,
    records_len: usize,
    report: *mut [u64; 3],
) {
    // SAFETY: the same; the table and the report are borrowed too.
    *report = calls::run(&mut *table, from_raw_parts(records, records_len));
}
