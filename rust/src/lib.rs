//! Exact max-min fair rates, and the B-Neck protocol as a machine that takes one packet at a time.
//!
//! This is the proved library's face for Rust: every function here calls one entry point of the
//! static library that `rt lib` in `crates/exports` writes, and turns its report into Rust's types. The
//! bytes of the records, the limits and the numbers of the refusals are described in the
//! repository's README.
//!
//! Every call takes every input and ends. What is not taken is [`Refused`], with a number and a
//! place, and changes nothing.
//!
//! ```
//! use umbraconga::{calculate, Table, Told};
//!
//! let records = [
//!     1, 0, 0, 0, 0, 10, // link 0 carries 10 kbit/s
//!     2, 0, 0, 0, 0, 100, 0, 0, 0, 0, // session 0: an access line of 100 kbit/s, no maximum
//!     1, 0, 255, 255, 255, 255, 255, 255, 255, // and a path of one link, link 0
//! ];
//! let rates = calculate(&records)?;
//! assert_eq!(rates.to_string(), "links 1 sessions 1\n0 10/1 link 0");
//!
//! let mut table = Table::empty();
//! assert_eq!(table.run(&records).refused, None);
//! // Deliver the packet that was sent first, until none is left.
//! while table.run(&[5, 0, 0]).refused.is_none() {}
//! assert_eq!(table.in_flight(), 0);
//! assert!(table.settled()?);
//! assert_eq!(table.told(0), Told::Rate { num: 10, den: 1 });
//! # Ok::<(), umbraconga::Refused>(())
//! ```

#![warn(missing_docs)]
#![deny(unsafe_code)]

mod calculation;
mod raw;
mod refused;
mod table;

pub use calculation::{calculate, calculate_into, Declared, Place, Rates, Share};
pub use refused::Refused;
pub use table::{Ran, Table, Told};

/// Links are numbered 0 to 63.
pub const LINKS: usize = 64;
/// Sessions are numbered 0 to 31.
pub const SESSIONS: usize = 32;
/// The number that stands for "own" as a binding place in a lent slice.
pub const OWN: u64 = 64;
/// The words of a machine's table.
pub const TABLE_WORDS: usize = 9153;
/// The most bytes that the records of a table take: 64 links of 6 bytes and 32 sessions of 19.
pub const RECORDS_MOST: usize = 992;
