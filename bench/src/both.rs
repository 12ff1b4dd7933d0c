//! The same call on both sides, compared and timed.

use crate::calls::{library, Call, Job};
use crate::reference::Reference;
use std::time::Instant;

/// Bytes enough for every answer.
pub const ROOM: usize = 1 << 20;

/// A lent buffer: the first bytes are lent, and those behind them must stay.
#[derive(Clone, PartialEq)]
pub struct Lent {
    pub bytes: Vec<u8>,
    pub room: usize,
}

impl Lent {
    /// Room enough for every answer.
    pub fn enough() -> Lent {
        Lent { bytes: vec![170; ROOM], room: ROOM }
    }

    fn slice(&mut self) -> &mut [u8] {
        &mut self.bytes[..self.room]
    }
}

/// The two sides and how many comparisons came out equal and unequal.
#[derive(Default)]
pub struct Both {
    pub reference: Reference,
    pub passed: usize,
    pub failed: usize,
}

impl Both {
    pub fn count(&mut self, equal: bool, name: impl Fn() -> String) {
        if equal {
            self.passed += 1;
        } else {
            self.failed += 1;
            if self.failed <= 20 {
                println!("DIFFERS: {}", name());
            }
        }
    }

    /// Makes the call on both sides with two such buffers, the further one for wing only; gives the answer.
    pub fn compare(&mut self, job: &Job, input: &[u8], lent: [Lent; 2]) -> i64 {
        let ([mut a, mut b], [mut c, mut d], before) = (lent.clone(), lent, input.to_vec());
        let x = library(job, input, a.slice(), b.slice());
        let y = self.reference.call(job, input, c.slice(), d.slice());
        let rooms = [a.room, b.room];
        self.count(x == y && a == c && b == d && before == input, || {
            format!("{job:?}, {} bytes, rooms {rooms:?}: library {x}, reference {y}", input.len())
        });
        x
    }

    /// The table of a list, by the reference.
    pub fn table(&mut self, d: usize, v: usize, s: usize, list: &[u8]) -> Result<Vec<u8>, i64> {
        let (mut table, mut uploaded) = (vec![0; 2 * s * (2 * d + 4)], vec![0; 2 * s * (d + 1)]);
        let answer = self.reference.call(&Job::new(Call::Wing, d, v, s, 0), list, &mut table, &mut uploaded);
        if answer < 0 { Err(answer) } else { Ok(table) }
    }

    /// Microseconds of a call on the library and on the reference, the least of so many rounds each, in turns.
    pub fn least(&mut self, job: &Job, input: &[u8], rounds: usize) -> (f64, f64) {
        let (mut out, mut further) = (vec![0; ROOM], vec![0; ROOM]);
        let start = Instant::now();
        library(job, input, &mut out, &mut further);
        let batch = (1e-4 / start.elapsed().as_secs_f64()).clamp(1.0, 50.0) as usize;
        let (mut ours, mut plain) = (f64::INFINITY, f64::INFINITY);
        for _ in 0..rounds {
            ours = ours.min(timed(batch, || _ = library(job, input, &mut out, &mut further)));
            plain = plain.min(timed(batch, || _ = self.reference.call(job, input, &mut out, &mut further)));
        }
        (ours, plain)
    }
}

/// Microseconds of one of several calls in a row.
fn timed(batch: usize, mut call: impl FnMut()) -> f64 {
    let start = Instant::now();
    for _ in 0..batch {
        call();
    }
    start.elapsed().as_secs_f64() * 1e6 / batch as f64
}
