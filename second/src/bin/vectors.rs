//! Reads recorded inputs from standard input and prints for each a line with its number and sort,
//! and then what `shares` or `steps` prints for it. Each input is framed: a byte of sort, `c` for
//! the calculation or `m` for the machine from the empty table, two bytes of length, big-endian,
//! and that many bytes of records. The first frame that is cut off or of another sort is the end.

use std::io::{self, Read, Write};

use second::texts::{shares, steps};

// The sort of a frame, its records, and the bytes after it.
fn first_frame(framed: &[u8]) -> Option<(u8, &[u8], &[u8])> {
    let &[sort, high, low, ref rest @ ..] = framed else {
        return None;
    };
    let length = usize::from(u16::from_be_bytes([high, low]));
    if rest.len() < length {
        return None;
    }
    let (input, after) = rest.split_at(length);
    Some((sort, input, after))
}

fn main() -> io::Result<()> {
    let mut framed = Vec::new();
    io::stdin().lock().read_to_end(&mut framed)?;
    let mut rest = &framed[..];
    let mut text = String::new();
    let mut number = 0;
    while let Some((sort, input, after)) = first_frame(rest) {
        let (name, block) = match sort {
            b'c' => ("calculation", shares(input)),
            b'm' => ("machine", steps(input)),
            _ => break,
        };
        text += &format!("input {number} {name}\n{block}");
        rest = after;
        number += 1;
    }
    io::stdout().write_all(text.as_bytes())
}
