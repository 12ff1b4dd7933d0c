//! Faces: a record for each empty wing.

use super::rows::{put, put_row, without, Row};
use super::{refuse_if, Reference, Refusal, EMPTY};

impl Reference {
    pub(super) fn faces_of<const N: usize>(&mut self, v: usize, s: usize, table: &[u8], out: &mut [u8]) -> Result<usize, Refusal> {
        self.read_sound::<N>(v, s, table)?;
        if N == 1 {
            return Ok(0);
        }
        let empty: usize = self.wings[..s].iter().map(|wings| wings[..N].iter().filter(|&&wing| wing == EMPTY).count()).sum();
        refuse_if(out.len() / 2 < empty * (N + 1), 15)?;
        let mut records = out.chunks_exact_mut(2 * (N + 1));
        for p in 0..s {
            for a in 0..N {
                if self.wings[p][a] == EMPTY {
                    // Sign and vertices are at most eight words, so they are a row too; the material stands behind.
                    let sign = (self.signs[p] ^ a as u16) & 1;
                    let record = records.next().unwrap();
                    put_row(&mut record[..2 * N], without::<N>(self.rows[p], a) << 16 | sign as Row);
                    put(record, N, self.materials[p]);
                }
            }
        }
        Ok(empty * (N + 1))
    }
}
