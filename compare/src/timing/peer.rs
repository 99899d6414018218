//! SimGrid's max-min solver, where it is installed: `peer/simgrid.cpp` is built with the system's C++
//! compiler and runs as a process of its own, which is asked line by line and times itself.

use std::env;
use std::io::{self, BufRead, BufReader, ErrorKind, Write};
use std::path::Path;
use std::process::{Child, ChildStdin, ChildStdout, Command, Stdio};
use std::time::Duration;

use umbraconga::Share;

use super::markdown::{ratio, time};

const SOURCE: &str = include_str!("../../peer/simgrid.cpp");
const COMPILERS: [&str; 2] = ["c++", "g++"];
// How far the solver's rates, which are doubles, may be from the exact ones.
const TOLERANCE: f64 = 1e-9;

/// The running solver.
pub struct Peer {
    child: Child,
    // None once the process is told to end.
    asking: Option<ChildStdin>,
    answers: BufReader<ChildStdout>,
    version: String,
}

/// What became of the solver.
pub enum Start {
    /// It runs.
    Ready(Peer),
    /// It is not installed, and this is what is missing.
    Skipped(String),
}

/// What the solver takes for one calculation, in microseconds.
#[derive(Clone, Copy)]
pub struct Times {
    /// From the records to the rates, with a system that is made for it.
    pub fresh: f64,
    /// To dispose of that system afterwards.
    pub disposing: f64,
    /// From the records to the rates, in a system that is kept, and back to this system.
    pub kept: f64,
    /// The part of it in which the problem is solved.
    pub solving: f64,
}

impl Times {
    /// The lower ones of both.
    pub fn lower(self, other: Times) -> Times {
        Times {
            fresh: self.fresh.min(other.fresh),
            disposing: self.disposing.min(other.disposing),
            kept: self.kept.min(other.kept),
            solving: self.solving.min(other.solving),
        }
    }

    /// The cells of a table beside the library's time.
    pub fn cells(self, library: f64) -> [String; 6] {
        [
            time(self.fresh),
            ratio(library / self.fresh),
            time(self.disposing),
            time(self.kept),
            ratio(library / self.kept),
            time(self.solving),
        ]
    }
}

/// The heads over these cells, of the solver of this name.
pub fn heads(name: &str) -> [String; 6] {
    [
        format!("{name} from nothing"),
        "library / that".to_string(),
        "disposing of it".to_string(),
        format!("{name} kept"),
        "library / that".to_string(),
        "solving alone".to_string(),
    ]
}

/// Hands records to the solver, if it is there.
pub fn load(peer: &mut Option<Peer>, records: &[u8]) -> Result<(), String> {
    match peer {
        Some(peer) => peer.load(records),
        None => Ok(()),
    }
}

/// The solver's turn in a round; it takes no time where it is not there.
pub fn turn(peer: &mut Option<Peer>, times: usize) -> Result<[Duration; 4], String> {
    match peer {
        Some(peer) => peer.turn(times),
        None => Ok([Duration::ZERO; 4]),
    }
}

impl Peer {
    /// Builds the solver's program and starts it. A fault is what goes wrong after it was built.
    pub fn start() -> Result<Start, String> {
        let program = env::current_exe().map_err(|fault| format!("where bench is: {fault}"))?;
        let program = program.with_file_name("simgrid_peer");
        if let Err(missing) = build(&program) {
            return Ok(Start::Skipped(missing));
        }
        let child = Command::new(&program)
            .stdin(Stdio::piped())
            .stdout(Stdio::piped())
            .spawn();
        let mut child =
            child.map_err(|fault| format!("SimGrid's solver does not start: {fault}"))?;
        let asking = child.stdin.take();
        let answers = child.stdout.take().expect("it is piped");
        let mut peer = Peer {
            child,
            asking,
            answers: BufReader::new(answers),
            version: String::new(),
        };
        peer.version = peer.answer("ready")?;
        Ok(Start::Ready(peer))
    }

    /// SimGrid and its version.
    pub fn name(&self) -> String {
        format!("SimGrid {}", self.version)
    }

    // Hands records that the library accepts over, and holds the solver's rates to the library's.
    fn load(&mut self, records: &[u8]) -> Result<(), String> {
        let exact = umbraconga::calculate(records).map_err(|refused| refused.to_string())?;
        let hexadecimal: String = records.iter().map(|byte| format!("{byte:02x}")).collect();
        self.ask(&format!("load {hexadecimal}"), "loaded")?;
        for (line, word) in [("fresh 1", "calculated"), ("run 1", "ran")] {
            self.ask(line, word)?;
            let rates = self.ask("rates", "rates")?;
            let agreed = agree(&rates, exact.iter());
            agreed.map_err(|fault| format!("{fault}: {line}, records {hexadecimal}"))?;
        }
        Ok(())
    }

    // Calculates so many times from nothing, so many times in the system that is kept, and once more
    // so many times in it, of which only the solving counts.
    fn turn(&mut self, times: usize) -> Result<[Duration; 4], String> {
        let [fresh, disposing] = self.times(&format!("fresh {times}"), "calculated")?;
        let [kept] = self.times(&format!("run {times}"), "ran")?;
        let [solving] = self.times(&format!("solve {times}"), "solved")?;
        Ok([fresh, disposing, kept, solving])
    }

    fn times<const COUNT: usize>(
        &mut self,
        line: &str,
        word: &str,
    ) -> Result<[Duration; COUNT], String> {
        let answer = self.ask(line, word)?;
        let nanoseconds: Result<Vec<u64>, _> = answer.split(' ').map(str::parse).collect();
        let nanoseconds = nanoseconds.ok().and_then(|times| times.try_into().ok());
        match nanoseconds {
            Some::<[u64; COUNT]>(nanoseconds) => Ok(nanoseconds.map(Duration::from_nanos)),
            None => Err(format!("SimGrid's solver answers '{answer}', not times")),
        }
    }

    // Asks for a line, and gives back what follows its first word, which is known.
    fn ask(&mut self, line: &str, word: &str) -> Result<String, String> {
        let asking = self.asking.as_mut().expect("it has not been told to end");
        writeln!(asking, "{line}")
            .map_err(|fault| format!("SimGrid's solver has ended: {fault}"))?;
        self.answer(word)
    }

    fn answer(&mut self, word: &str) -> Result<String, String> {
        let mut line = String::new();
        let read = self.answers.read_line(&mut line);
        read.map_err(|fault| format!("SimGrid's solver does not answer: {fault}"))?;
        match line.trim_end().strip_prefix(word) {
            Some(rest) => Ok(rest.trim_start().to_string()),
            None => Err(format!("SimGrid's solver answers '{line}', not '{word}'")),
        }
    }
}

// The process ends where nothing can be asked any more.
impl Drop for Peer {
    fn drop(&mut self) {
        self.asking = None;
        let _ = self.child.wait();
    }
}

// Compiles the program, or says in one line what is missing.
fn build(program: &Path) -> Result<(), String> {
    for compiler in COMPILERS {
        match compile(compiler, program) {
            Err(fault) if fault.kind() == ErrorKind::NotFound => continue,
            Err(fault) => return Err(format!("{compiler} does not run: {fault}")),
            Ok(None) => return Ok(()),
            Ok(Some(complaint)) => return Err(format!("{compiler} says '{complaint}'")),
        }
    }
    Err("there is no C++ compiler on the path".to_string())
}

// What the compiler complains of first, if it does.
fn compile(compiler: &str, program: &Path) -> io::Result<Option<String>> {
    let mut child = Command::new(compiler)
        .args(["-std=c++17", "-O2", "-x", "c++", "-", "-lsimgrid", "-o"])
        .arg(program)
        .stdin(Stdio::piped())
        .stderr(Stdio::piped())
        .spawn()?;
    let mut source = child.stdin.take().expect("it is piped");
    source.write_all(SOURCE.as_bytes())?;
    drop(source);
    let output = child.wait_with_output()?;
    if output.status.success() {
        return Ok(None);
    }
    let complaints = String::from_utf8_lossy(&output.stderr);
    let words = ["error", "cannot find", "undefined reference"];
    let says_why = |line: &&str| words.iter().any(|word| line.contains(word));
    let line = complaints.lines().find(says_why);
    let line = line.or(complaints.lines().next()).unwrap_or("nothing");
    Ok(Some(line.trim().to_string()))
}

// Whether the solver's rates, `session rate session rate ...`, are the exact ones.
fn agree(rates: &str, exact: impl Iterator<Item = Share>) -> Result<(), String> {
    let mut words = rates.split_whitespace();
    let mut told = Vec::new();
    while let (Some(session), Some(rate)) = (words.next(), words.next()) {
        match (session.parse::<usize>(), rate.parse::<f64>()) {
            (Ok(session), Ok(rate)) => told.push((session, rate)),
            _ => return Err(format!("SimGrid's rates are no numbers: {rates}")),
        }
    }
    told.sort_by_key(|&(session, _)| session);
    let exact: Vec<Share> = exact.collect();
    if told.len() != exact.len() {
        return Err(format!(
            "SimGrid has {} rates, not {}",
            told.len(),
            exact.len()
        ));
    }
    for ((session, rate), share) in told.into_iter().zip(exact) {
        let fraction = share.num as f64 / share.den as f64;
        let is_near = (rate - fraction).abs() <= TOLERANCE * fraction;
        if session != share.session || !is_near {
            return Err(format!(
                "SimGrid gives session {session} the rate {rate}, and the library '{share}'"
            ));
        }
    }
    Ok(())
}

#[cfg(test)]
mod tests {
    use super::agree;
    use crate::loads::P6;

    // P6's rates are 10/3 three times and 50/3.
    fn of_p6(rates: &str) -> Result<(), String> {
        let exact = umbraconga::calculate(P6).expect("P6 is accepted");
        agree(rates, exact.iter())
    }

    #[test]
    fn rates_that_agree() {
        let rates = "0 3.3333333333333335 2 3.3333333333 1 3.3333333333333335 3 16.666666666666668";
        assert_eq!(of_p6(rates), Ok(()));
    }

    #[test]
    fn rates_that_differ() {
        for rates in [
            "0 3.3333333333333335 1 3.3333333333333335 2 3.3333333333333335 3 16.6666666",
            "0 3.3333333333333335 1 3.3333333333333335 2 3.3333333333333335 3 nan",
            "0 3.3333333333333335 1 3.3333333333333335 2 3.3333333333333335",
            "0 3.3333333333333335 1 3.3333333333333335 2 3.3333333333333335 4 16.666666666666668",
            "0 3.3333333333333335 1 3.3333333333333335 2 3.3333333333333335 3 sixteen",
            "",
        ] {
            assert!(of_p6(rates).is_err(), "{rates}");
        }
    }
}
