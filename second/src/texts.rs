//! What the programs write: the texts of `shares` and `steps` (01, "Examples"), each line ended by
//! byte 10, and the records of `present` (02, §3).

use crate::calculation::calculate;
use crate::machine::{run, settled, write, Source, Table, OUTPUT_BYTES};
use crate::records::{Refused, OWN, SESSIONS};

/// What `shares` prints: the counts and one line for each declared session, or only the refusal.
pub fn shares(input: &[u8]) -> String {
    let mut nums = [0; SESSIONS];
    let mut dens = [0; SESSIONS];
    let mut places = [0; SESSIONS];
    let declared = match calculate(input, &mut nums, &mut dens, &mut places) {
        Ok(declared) => declared,
        Err(refused) => return refusal_line(refused),
    };
    let links = declared.links.count_ones();
    let sessions = declared.sessions.count_ones();
    let mut text = format!("links {links} sessions {sessions}\n");
    for session in (0..SESSIONS).filter(|&session| declared.sessions >> session & 1 == 1) {
        let (num, den) = (nums[session], dens[session]);
        let place = place_words(places[session]);
        text += &format!("{session} {num}/{den} {place}\n");
    }
    text
}

/// What `steps` prints: the counts and the answer to the settled question, one line for each active
/// session, and the refusal, if any, at the end.
pub fn steps(input: &[u8]) -> String {
    let mut table = Table::empty();
    let ran = run(&mut table, input);
    // A table reached from the empty one passes 14, so the question is answered.
    let answer = match settled(&table) {
        Ok(true) => "yes",
        _ => "no",
    };
    let (taken, packets) = (ran.taken, table.packets.len());
    let mut text = format!("taken {taken} packets {packets} settled {answer}\n");
    let sources = table.sources.iter().enumerate();
    for (session, source) in sources.filter(|(_, source)| source.is_active()) {
        text += &format!("{session} {}\n", told_words(source));
    }
    text + &ran.refused.map(refusal_line).unwrap_or_default()
}

/// What `present` writes: the records of the links and active sessions in the table that stays, which
/// after a refusal is the one before the refused record.
pub fn present(input: &[u8]) -> Vec<u8> {
    let mut table = Table::empty();
    run(&mut table, input);
    let mut output = [0; OUTPUT_BYTES];
    let count = write(&table, &mut output)
        .expect("a table reached from the empty one passes 14, and no output is longer");
    output[..count as usize].to_vec()
}

// "own" stands alone.
fn place_words(place: u64) -> String {
    if place == OWN {
        "own".to_string()
    } else {
        format!("link {place}")
    }
}

// The rate last told, or `none`.
fn told_words(source: &Source) -> String {
    if source.told == 0 {
        "none".to_string()
    } else {
        format!("{}/{}", source.told_num, source.told_den)
    }
}

fn refusal_line(refused: Refused) -> String {
    format!("refused {} at {}\n", refused.number, refused.place)
}
