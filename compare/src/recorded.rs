//! Recorded inputs: the examples of documents 01 and 02 and the one for `present` in `examples/`, and the
//! further ones in `compare/vectors/`. Beside each input stands what the programs print or write for it, so that the
//! two sides are also held to what both said when it was recorded.

use std::fs;
use std::path::{Path, PathBuf};

use second::texts;
use umbraconga::{calculate, Table};

use crate::calculation::compare_plainly;
use crate::difference::{same, Difference};
use crate::pair::Pair;
use crate::present::written;
use crate::random::Random;
use crate::runs::record_ends;
use crate::tally::Tally;

/// The inputs for the calculation.
pub fn calculations(random: &mut Random, tally: &mut Tally) -> Result<(), Difference> {
    for (records, text) in recorded(&["../examples", "vectors"], "txt")? {
        compare_plainly(&records, random, tally)?;
        let ours = match calculate(&records) {
            Ok(rates) => format!("{rates}\n"),
            Err(refused) => format!("{refused}\n"),
        };
        same_texts(&records, &text, &ours, &texts::shares(&records))?;
    }
    Ok(())
}

/// The inputs for the machine, in one call and record by record.
pub fn runs(_: &mut Random, tally: &mut Tally) -> Result<(), Difference> {
    for (records, text) in recorded(&["../examples/steps", "vectors/steps"], "txt")? {
        let mut pair = Pair::empty();
        let ran = pair.run(&records, tally)?;
        let mut table = Table::empty();
        same("the same run again", &records, table.run(&records), ran)?;
        let refused = ran
            .refused
            .map_or(String::new(), |refused| format!("{refused}\n"));
        let ours = format!("taken {} {table}\n{refused}", ran.taken);
        same_texts(&records, &text, &ours, &texts::steps(&records))?;
        pair.again(&record_ends(pair.taken()), tally)?;
    }
    Ok(())
}

/// The inputs for the machine whose tables are then written out.
pub fn outputs(_: &mut Random, tally: &mut Tally) -> Result<(), Difference> {
    for (records, bytes) in recorded(&["../examples/present"], "out")? {
        let mut pair = Pair::empty();
        pair.run(&records, tally)?;
        written(&pair, &bytes, tally)?;
        let second = texts::present(&records);
        same("the recorded bytes and second's", &records, bytes, second)?;
        pair.again(&record_ends(pair.taken()), tally)?;
    }
    Ok(())
}

// The text that was recorded is the library's and second's.
fn same_texts(records: &[u8], text: &[u8], ours: &str, second: &str) -> Result<(), Difference> {
    let text: &str = &String::from_utf8_lossy(text);
    same("the recorded text and the library's", records, ours, text)?;
    same("the recorded text and second's", records, text, second)
}

// An input, and what the programs print or write for it.
type Recorded = (Vec<u8>, Vec<u8>);

// The inputs of these folders, which are named from this package's own, each with what stands beside it
// in the file with this extension. That there are none is a difference too: the files are part of the
// comparison.
fn recorded(folders: &[&str], extension: &str) -> Result<Vec<Recorded>, Difference> {
    let read = |file: &Path| fs::read(file).map_err(|error| unread(file, error));
    let mut all = Vec::new();
    for folder in folders {
        let folder = Path::new(env!("CARGO_MANIFEST_DIR")).join(folder);
        let inputs = inputs(&folder).map_err(|error| unread(&folder, error))?;
        same("inputs in a folder", &[], inputs.is_empty(), false)?;
        for input in inputs {
            all.push((read(&input)?, read(&input.with_extension(extension))?));
        }
    }
    Ok(all)
}

fn inputs(folder: &Path) -> std::io::Result<Vec<PathBuf>> {
    let mut inputs = Vec::new();
    for file in fs::read_dir(folder)? {
        let path = file?.path();
        if path.extension().is_some_and(|end| end == "bin") {
            inputs.push(path);
        }
    }
    inputs.sort();
    Ok(inputs)
}

fn unread(path: &Path, error: std::io::Error) -> Difference {
    Difference::new(
        &format!("{} was not read", path.display()),
        &[],
        error,
        "a file",
    )
}
