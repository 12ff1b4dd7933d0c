//! Sweep: level 0 is worked out, a record's vertices and its wings each as one row; the others are raised from it.

use super::rows::{put, put_row, Row, FIRST};
use super::sound::place_of;
use super::{refuse_if, Reference, Refusal, EMPTY};

impl Reference {
    pub(super) fn sweep_of<const N: usize>(&mut self, v: usize, s: usize, h: usize, table: &[u8], out: &mut [u8]) -> Result<usize, Refusal> {
        self.read_sound::<N>(v, s, table)?;
        let words = s * N * (2 * N + 4);
        refuse_if(out.len() / 2 < h * words, 15)?;
        let swept = &mut out[..2 * h * words];
        for (p, column) in swept[..2 * words].chunks_exact_mut(2 * N * (2 * N + 4)).enumerate() {
            self.put_column::<N>(v, p, column);
        }
        raise_levels::<N>(v, s, h, swept);
        join_levels::<N>(s, swept);
        Ok(h * words)
    }

    /// The records over cell p at level 0.
    #[inline(always)]
    fn put_column<const N: usize>(&self, v: usize, p: usize, column: &mut [u8]) {
        let ones = FIRST[N] / 65535;
        let (row, base) = (self.rows[p] & FIRST[N], (p * N) as Row);
        let raised = row + ones * v as Row;
        // By side: the neighbour's first cell and the place of its wing back, or empty.
        let (mut firsts, mut places, mut empty) = (0, 0, 0);
        for a in 0..N {
            let lone = self.wings[p][a] == EMPTY;
            let q = if lone { p } else { self.wings[p][a] as usize };
            firsts |= ((q * N) as Row) << (16 * a);
            empty |= (if lone { 65535 } else { 0 }) << (16 * a);
            places |= (place_of::<N>(&self.wings[q], p) as Row) << (16 * a);
        }
        let mut pairs_before = 0;
        for k in 0..N {
            let record = &mut column[2 * k * (2 * N + 4)..2 * (k + 1) * (2 * N + 4)];
            // Pair k of each side is with the neighbour's cell k, or k + 1 from its place on: bit 15 is left there.
            let from_place = ((ones << 15) + ones * k as Row - places) >> 15 & ones;
            let pairs = (firsts + ones * k as Row + from_place) | empty;
            let sides = pairs >> (16 * (k + 1)) | (pairs_before & FIRST[k]) << (16 * (N - 1 - k));
            let next = if k + 1 < N { base + k as Row + 1 } else { EMPTY as Row };
            let last = if k > 0 { base + k as Row - 1 } else { EMPTY as Row };
            put(record, 0, self.signs[p] ^ (k * (N - 1)) as u16 & 1);
            put(record, 1, self.materials[p]);
            put_row(&mut record[4..6 + 2 * N], row >> (16 * k) | raised << (16 * (N - k)));
            put_row(&mut record[6 + 2 * N..], next | sides << 16 | last << (16 * N));
            pairs_before = pairs;
        }
    }
}

/// Each level is the one below with its vertices and cells raised; empty wings, being 65535, stay so.
fn raise_levels<const N: usize>(v: usize, s: usize, h: usize, swept: &mut [u8]) {
    let (size, level) = (2 * N + 4, 2 * s * N * (2 * N + 4));
    // What is added to eight records.
    let mut added = [0u16; 8 * 18];
    for record in added.chunks_exact_mut(size).take(8) {
        record[2..N + 3].fill(v as u16);
        record[N + 3..].fill((s * N) as u16);
    }
    for i in 1..h {
        let (below, here) = swept.split_at_mut(i * level);
        for (from, to) in below[(i - 1) * level..].chunks(16 * size).zip(here[..level].chunks_mut(16 * size)) {
            for ((x, y), n) in from.as_chunks::<2>().0.iter().zip(to.as_chunks_mut::<2>().0).zip(&added) {
                *y = u16::from_le_bytes(*x).saturating_add(*n).to_le_bytes();
            }
        }
    }
}

/// The last cell over each p and the first cell over p at the next level are each other's wings.
fn join_levels<const N: usize>(s: usize, swept: &mut [u8]) {
    let (size, cells) = (2 * N + 4, swept.len() / (2 * (2 * N + 4)));
    for next in (s * N..cells).step_by(N) {
        let last = next - s * N + N - 1;
        put(swept, last * size + N + 3, next as u16);
        put(swept, next * size + 2 * N + 3, last as u16);
    }
}
