//! Requests: which block, read or written.

use crate::rng::{scattered, Rng};

pub struct Load {
    pub name: &'static str,
    pub draws: Draws,
}

/// How blocks are drawn, and of a hundred requests how many are reads.
pub enum Draws {
    Uniform {
        reads: u64,
    },
    /// Zipf's law with exponent 1: the block of rank k is drawn in proportion to 1 / k.
    Skewed {
        reads: u64,
    },
    /// In turn: the first `file` blocks are written, then the next `scanned` of all others are read, round and round.
    Saved {
        file: u32,
        scanned: u32,
    },
}

pub const LOADS: [Load; 5] = [
    Load {
        name: "uniform writes",
        draws: Draws::Uniform { reads: 0 },
    },
    Load {
        name: "skewed writes",
        draws: Draws::Skewed { reads: 0 },
    },
    Load {
        name: "uniform, 70 % reads",
        draws: Draws::Uniform { reads: 70 },
    },
    Load {
        name: "skewed, 70 % reads",
        draws: Draws::Skewed { reads: 70 },
    },
    Load {
        name: "a file saved often among scans",
        draws: Draws::Saved {
            file: 100,
            scanned: 400,
        },
    },
];

pub enum Request {
    Read(u32),
    Write(u32),
}

/// Draws requests.
pub struct Trace<'a> {
    load: &'a Load,
    rng: Rng,
    /// The sum of the weights up to each rank.
    sums: Vec<f64>,
    /// How many requests there were.
    made: u32,
}

impl Trace<'_> {
    pub fn new(load: &Load, blocks: u32) -> Trace<'_> {
        let mut sum = 0.0;
        let mut up_to = |k: u32| {
            sum += match load.draws {
                Draws::Skewed { .. } => 1.0 / k as f64,
                _ => 1.0,
            };
            sum
        };
        Trace {
            load,
            rng: Rng::new(),
            sums: (1..=blocks).map(&mut up_to).collect(),
            made: 0,
        }
    }

    pub fn next(&mut self) -> Request {
        let made = self.made;
        self.made += 1;
        match self.load.draws {
            Draws::Uniform { reads } | Draws::Skewed { reads } => self.drawn(reads),
            Draws::Saved { file, scanned } => {
                let (round, at) = (made / (file + scanned), made % (file + scanned));
                if at < file {
                    return Request::Write(at);
                }
                let others = self.sums.len() as u32 - file;
                Request::Read(file + (round * scanned + at - file) % others)
            }
        }
    }

    fn drawn(&mut self, reads: u64) -> Request {
        let drawn = self.rng.unit() * self.sums[self.sums.len() - 1];
        let rank = self
            .sums
            .partition_point(|sum| *sum <= drawn)
            .min(self.sums.len() - 1);
        let block = scattered(rank as u32, self.sums.len() as u32);
        if self.rng.below(100) < reads {
            Request::Read(block)
        } else {
            Request::Write(block)
        }
    }
}
