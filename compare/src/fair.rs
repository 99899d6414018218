//! A settled table has the rates of the calculation: every active session was told the rate that the
//! records of the same links and sessions, with their present maxima, give.

use second::machine::table::{Table as Other, YES};
use umbraconga::{Table, Told};

use crate::calculation::{by_library, by_second};
use crate::difference::{same, Difference};
use crate::tally::Tally;
use crate::words::SESSIONS;
use second::making::{link, session};

/// Compares what the sessions of a settled table were told with the calculation, on both sides.
pub fn compare(second: &Other, ours: &Table, tally: &mut Tally) -> Result<(), Difference> {
    let records = records_of(second);
    let slices = || [vec![0; SESSIONS], vec![0; SESSIONS], vec![0; SESSIONS]];
    let calculated = by_second(&records, slices());
    same(
        "the calculation of a settled table",
        &records,
        &by_library(&records, slices()),
        &calculated,
    )?;
    let (answer, [nums, dens, _]) = calculated;
    let sessions = match answer {
        Ok((_, sessions)) => sessions,
        Err(refused) => {
            let what = "the calculation of a settled table";
            return Err(Difference::new(what, &records, "accepted", refused));
        }
    };
    for number in 0..SESSIONS {
        let calculated = match sessions >> number & 1 {
            1 => Told::Rate {
                num: nums[number],
                den: dens[number],
            },
            _ => Told::NotActive,
        };
        let told = ours.told(number as u32);
        same(
            "the rate told and the one calculated",
            &records,
            told,
            calculated,
        )?;
    }
    tally.settled(u64::from(sessions.count_ones()));
    Ok(())
}

/// The records that declare a table's links, and its active sessions with their present maxima.
pub fn records_of(table: &Other) -> Vec<u8> {
    let mut bytes = Vec::new();
    for (number, one) in table.links.iter().enumerate() {
        if one.declared == YES {
            bytes.extend(link(number as u8, one.capacity as u32));
        }
    }
    for (number, source) in table.sources.iter().enumerate() {
        if source.is_active() {
            let path: Vec<u8> = source.path_links().iter().map(|&on| on as u8).collect();
            let (access, maximum) = (source.access as u32, source.maximum as u32);
            bytes.extend(session(number as u8, access, maximum, &path));
        }
    }
    bytes
}
