//! What the tests share: a machine that notes what it took, a small generator.

use second::calculation::{calculate, Declared};
use second::machine::table::{Packet, Table};
use second::machine::{passes_14, run, Ran};
use second::records::Refused;

pub use second::making::{change, deliver, is_in_turn, leave, link, session};

/// Document 01, "Examples": access is 100 and there is no maximum unless said.
pub fn plain_session(number: u8, path: &[u8]) -> Vec<u8> {
    session(number, 100, 0, path)
}

pub fn refused(number: u64, place: u64) -> Option<Refused> {
    Some(Refused { number, place })
}

/// Numerators, denominators and binding places by session number.
pub type Slices = [[u64; 32]; 3];

/// The calculation of this input.
pub fn calculated(input: &[u8]) -> Result<(Declared, Slices), Refused> {
    let [mut nums, mut dens, mut places] = [[0; 32]; 3];
    let declared = calculate(input, &mut nums, &mut dens, &mut places)?;
    Ok((declared, [nums, dens, places]))
}

/// A table that is run record by record, and the bytes of all the records that it took.
pub struct Machine {
    pub table: Table,
    pub bytes: Vec<u8>,
}

impl Machine {
    pub fn new() -> Machine {
        Machine::with(Table::empty())
    }

    pub fn with(table: Table) -> Machine {
        let bytes = Vec::new();
        Machine { table, bytes }
    }

    /// Runs one record and demands that it be taken.
    pub fn take(&mut self, record: Vec<u8>) {
        let ran = run(&mut self.table, &record);
        let all = Ran {
            taken: 1,
            refused: None,
        };
        assert_eq!(ran, all, "{record:?}");
        self.bytes.extend(record);
    }

    /// Runs one record and demands this refusal, and that the table stays.
    pub fn refuse(&mut self, record: Vec<u8>, number: u64) {
        let before = self.table.clone();
        let ran = run(&mut self.table, &record);
        let none = Ran {
            taken: 0,
            refused: refused(number, 0),
        };
        assert_eq!(ran, none, "{record:?}");
        assert!(
            self.table == before,
            "refused {number} and changed the table"
        );
    }

    /// The position of the first chosen packet that is in turn.
    pub fn first(&self, chosen: impl Fn(&Packet) -> bool) -> Option<usize> {
        let packets = &self.table.packets;
        (0..packets.len())
            .find(|&position| chosen(&packets[position]) && is_in_turn(packets, position))
    }

    /// Delivers chosen packets, the earliest sent first, until none is left.
    pub fn drain(&mut self, chosen: impl Fn(&Packet) -> bool) {
        for _ in 0..10_000 {
            match self.first(&chosen) {
                Some(position) => self.take(deliver(position)),
                None => return,
            }
        }
        panic!("the chosen packets do not end");
    }

    /// The entry of a session at a link: numerator and denominator.
    pub fn rate_at(&self, link: usize, session: usize) -> (u64, u64) {
        let entry = self.table.links[link].entries[session];
        (entry.num, entry.den)
    }
}

/// A machine that took these records, none of them refused.
pub fn taken(records: &[Vec<u8>]) -> Machine {
    let mut machine = Machine::new();
    for record in records {
        machine.take(record.clone());
    }
    assert_eq!(passes_14(&machine.table), Ok(()));
    machine
}

/// A machine that took these records and then delivered all packets.
pub fn at_rest(records: &[Vec<u8>]) -> Machine {
    let mut machine = taken(records);
    machine.drain(|_| true);
    machine
}

/// A generator of random numbers (xorshift, 64 bits).
pub struct Random(u64);

impl Random {
    pub fn new(seed: u64) -> Random {
        // The state is never 0.
        Random(seed.wrapping_mul(0x9e37_79b9_7f4a_7c15) | 1)
    }

    pub fn next(&mut self) -> u64 {
        self.0 ^= self.0 << 13;
        self.0 ^= self.0 >> 7;
        self.0 ^= self.0 << 17;
        self.0.wrapping_mul(0x2545_f491_4f6c_dd1d) >> 16
    }

    /// A number under `count`.
    pub fn under(&mut self, count: usize) -> usize {
        (self.next() % count as u64) as usize
    }

    pub fn chance(&mut self, percent: usize) -> bool {
        self.under(100) < percent
    }

    pub fn one_of<T: Copy>(&mut self, choices: &[T]) -> T {
        choices[self.under(choices.len())]
    }

    /// Different links of `links` in random order, 1 to 8 of them.
    pub fn path(&mut self, links: &[u8]) -> Vec<u8> {
        let mut left = links.to_vec();
        let length = 1 + self.under(left.len().min(8));
        (0..length)
            .map(|_| left.swap_remove(self.under(left.len())))
            .collect()
    }
}
