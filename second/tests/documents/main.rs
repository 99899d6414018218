//! Tests from the documents: expected values are document 01's, or worked out by hand beside each
//! test; none is taken from the program's own output.

mod above;
mod bottleneck;
mod common;
mod damage;
mod examples;
mod fairness;
mod figure2;
mod figures3and4;
mod fineness;
mod fractions;
mod handed;
mod handed_fields;
mod handed_whole;
mod packets;
mod random;
mod reading;
mod reading_back;
mod refusals;
mod settled;
mod travel;
mod world;
mod writing;
