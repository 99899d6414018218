//! Compares the proved library (through `umbraconga`) with the second implementation (`second`),
//! which was written from the documents alone. The program `compare` runs every sort of input of
//! `sorts` on both and counts; the program `bench` times both on the same inputs (`timing`); the program
//! `stack` measures the library's stack on such inputs (`stack`).
//!
//! What is compared: of a calculation the answer and all three slices in full (`calculation`); of a
//! run the report, the words of the table that are in use, the settled question, what every session
//! was told, and after a refusal all words with those of the records taken before (`pair`); of the
//! records written out the answer and the whole slice, and that they are read back (`writing`). Where
//! both sides say settled, the rates told are those of the calculation (`fair`).

#![forbid(unsafe_code)]
#![warn(missing_docs)]

pub mod above;
pub mod bottleneck;
pub mod built;
pub mod calculation;
pub mod crowded;
pub mod damage;
pub mod difference;
pub mod fair;
pub mod faults;
pub mod frame;
pub mod loads;
pub mod nearly;
pub mod networks;
pub mod odd;
pub mod outputs;
pub mod pair;
pub mod places;
pub mod present;
pub mod purpose;
pub mod random;
pub mod recorded;
pub mod runs;
pub mod slices;
pub mod sorts;
pub mod stack;
pub mod tally;
pub mod timing;
pub mod words;
pub mod world;
pub mod writing;
