//! Max-min fair rates as exact fractions and the B-Neck tasks as a machine that takes one packet
//! at a time, written from documents 01 and 02 (records, refusals, additions, later changes) and
//! document 001 (the B-Neck paper: Definition 1 and Figures 1 to 4) alone, as a second implementation
//! to compare with.

#![forbid(unsafe_code)]
#![warn(missing_docs)]

pub mod calculation;
pub mod fraction;
pub mod machine;
pub mod making;
pub mod records;
pub mod tasks;
pub mod texts;
