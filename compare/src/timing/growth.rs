//! How the time of one calculation grows with the sessions and with the links, of the library and,
//! where it is there, of SimGrid's solver.

use super::markdown::{table, time};
use super::peer::{self, heads, Peer, Times};
use super::{library, lowest, microseconds};
use crate::loads::grown;

// The sizes that are measured, besides the full one, 64 links and 32 sessions.
const SESSIONS: [usize; 6] = [1, 2, 4, 8, 16, 24];
const LINKS: [usize; 6] = [1, 2, 4, 8, 16, 32];
// Networks of each size, whose times are averaged: one alone would stand for its own rates too.
const NETWORKS: u64 = 8;
// Rounds of a pass, and calculations of a turn.
const ROUNDS: usize = 4;
const TIMES: usize = 20;

/// The lowest times of one calculation at one size, in microseconds.
#[derive(Clone)]
pub struct Point {
    /// How many sessions or links.
    pub size: usize,
    // Of each network: the library, and SimGrid's times in the order that they have there.
    networks: Vec<[f64; 5]>,
    has_peer: bool,
}

impl Point {
    /// The library's time, on the average of the networks.
    pub fn library(&self) -> f64 {
        self.mean(0)
    }

    /// The times of SimGrid's solver, where it is there.
    pub fn peer(&self) -> Option<Times> {
        self.has_peer.then(|| Times {
            fresh: self.mean(1),
            disposing: self.mean(2),
            kept: self.mean(3),
            solving: self.mean(4),
        })
    }

    fn mean(&self, side: usize) -> f64 {
        let times = self.networks.iter().map(|times| times[side]);
        times.sum::<f64>() / self.networks.len() as f64
    }

    // The lower times of two passes over the same networks.
    fn lower(mut self, other: Point) -> Point {
        for (times, others) in self.networks.iter_mut().zip(other.networks) {
            for (time, other) in times.iter_mut().zip(others) {
                *time = time.min(other);
            }
        }
        self
    }
}

/// The times at all sizes.
pub struct Growth {
    /// By sessions, at 64 links and paths of 8.
    pub sessions: Vec<Point>,
    /// By links, at 32 sessions and paths of 8, or of all links where they are fewer.
    pub links: Vec<Point>,
    /// The peer with its version, where it is there.
    pub peer: Option<String>,
}

impl Growth {
    /// Times all sizes in one pass.
    pub fn measure(peer: &mut Option<Peer>) -> Result<Growth, String> {
        let [mut sessions, mut links] = [Vec::new(), Vec::new()];
        for size in SESSIONS {
            sessions.push(point(size, 64, size, peer)?);
        }
        for size in LINKS {
            links.push(point(size, size, 32, peer)?);
        }
        let full = point(64, 64, 32, peer)?;
        links.push(full.clone());
        sessions.push(Point { size: 32, ..full });
        let peer = peer.as_ref().map(Peer::name);
        Ok(Growth {
            sessions,
            links,
            peer,
        })
    }

    /// The lower times of two passes.
    pub fn lower(self, other: Growth) -> Growth {
        let lower = |one: Vec<Point>, other: Vec<Point>| {
            let pairs = one.into_iter().zip(other);
            pairs.map(|(one, other)| one.lower(other)).collect()
        };
        Growth {
            sessions: lower(self.sessions, other.sessions),
            links: lower(self.links, other.links),
            peer: self.peer,
        }
    }

    /// Both as tables.
    pub fn tables(&self) -> String {
        format!(
            "How the time of one calculation grows, in microseconds:\n\n{}\n{}",
            points("sessions, at 64 links", &self.sessions, &self.peer),
            points("links, at 32 sessions", &self.links, &self.peer)
        )
    }
}

fn points(name: &str, points: &[Point], peer: &Option<String>) -> String {
    let heads = peer.as_ref().map(|name| heads(name));
    let mut head = vec![name, "library"];
    head.extend(heads.iter().flatten().map(String::as_str));
    let rows = points.iter().map(|point| {
        let library = point.library();
        let mut row = vec![point.size.to_string(), time(library)];
        if let Some(peer) = point.peer() {
            row.extend(peer.cells(library));
        }
        row
    });
    table(&head, &rows.collect::<Vec<_>>())
}

fn point(
    size: usize,
    links: usize,
    sessions: usize,
    peer: &mut Option<Peer>,
) -> Result<Point, String> {
    let networks = (0..NETWORKS).map(|seed| times(&grown(seed, links, sessions), peer));
    let networks = networks.collect::<Result<Vec<_>, String>>()?;
    Ok(Point {
        size,
        networks,
        has_peer: peer.is_some(),
    })
}

// The lowest times of the library and of the solver.
fn times(records: &[u8], peer: &mut Option<Peer>) -> Result<[f64; 5], String> {
    peer::load(peer, records)?;
    let times = lowest(ROUNDS, || {
        let library = library(records, TIMES);
        let [fresh, disposing, kept, solving] = peer::turn(peer, TIMES)?;
        Ok([library, fresh, disposing, kept, solving])
    })?;
    Ok(times.map(|time| microseconds(time, TIMES)))
}
