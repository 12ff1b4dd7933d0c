//! Wing: the list is read and sorted, then one pass over the faces pairs them. For the wings in uploaded order the list is
//! read once more.

use super::rows::{self, ascending, hash, put, put_row, sort, vertex, without, word};
use super::{refuse_if, Reference, Refusal, EMPTY, MOST_MATERIAL};

impl Reference {
    pub(super) fn wing_of<const N: usize>(
        &mut self, v: usize, s: usize, cells: &[u8], out: &mut [u8], uploaded: &mut [u8],
    ) -> Result<usize, Refusal> {
        self.read_list::<N>(v, cells)?;
        self.wings[..s].fill([EMPTY; 8]);
        let fine = if N == 1 { !self.repeated(s) } else { self.pair_faces::<N>(s) };
        if !fine {
            return Err(self.fault::<N>(s));
        }
        let words = s * (2 * N + 2);
        refuse_if(out.len() / 2 < words || uploaded.len() / 2 < s * N, 15)?;
        self.put_table::<N>(&mut out[..2 * words]);
        self.put_uploaded::<N>(cells, &mut uploaded[..2 * s * N]);
        Ok(words)
    }

    /// Refusals 6, 7, 8 and 18; rows, signs and materials.
    fn read_list<const N: usize>(&mut self, v: usize, cells: &[u8]) -> Result<(), Refusal> {
        let (mut bad_sign, mut bad_vertex, mut twice, mut bad_material) = (false, false, false, false);
        let read = self.signs.iter_mut().zip(&mut self.materials).zip(&mut self.rows);
        for (cell, ((sign, material), row)) in cells.chunks_exact(2 * (N + 2)).zip(read) {
            let (sorted, odd) = sort::<N>(rows::row::<N>(cell, 2));
            bad_sign |= word(cell, 0) > 1;
            bad_vertex |= vertex(sorted, N - 1) as usize >= v;
            twice |= !ascending::<N>(sorted);
            *sign = word(cell, 0) ^ odd as u16;
            *material = word(cell, 1);
            bad_material |= *material > MOST_MATERIAL;
            *row = sorted;
        }
        refuse_if(bad_sign, 6)?;
        refuse_if(bad_vertex, 7)?;
        refuse_if(twice, 8)?;
        refuse_if(bad_material, 18)
    }

    /// Fills in the wings; false if one of refusals 9 to 11 applies.
    fn pair_faces<const N: usize>(&mut self, s: usize) -> bool {
        let (signs, rows, wings) = (&self.signs[..s], &self.rows[..s], &mut self.wings[..s]);
        let mut set = self.slots.set(s * N);
        for p in 0..s {
            for a in 0..N {
                let face = without::<N>(rows[p], a);
                let same = |key: usize| without::<N>(rows[key >> 3], key & 7) == face;
                if let Some(key) = set.find_or_put(hash(face), p << 3 | a, same) {
                    let (q, b) = (key >> 3, key & 7);
                    let opposite = (signs[p] ^ signs[q] ^ (a ^ b) as u16) & 1 == 1;
                    if !opposite || wings[q][b] != EMPTY || rows[q] == rows[p] {
                        return false;
                    }
                    wings[q][b] = p as u16;
                    wings[p][a] = q as u16;
                }
            }
        }
        true
    }

    /// Which of refusals 9 to 11 applies, one of which does.
    #[cold]
    fn fault<const N: usize>(&mut self, s: usize) -> Refusal {
        if self.repeated(s) {
            return 9;
        }
        let mut faces: Vec<_> = self.rows[..s].iter().flat_map(|&row| (0..N).map(move |a| without::<N>(row, a))).collect();
        faces.sort_unstable();
        if faces.windows(3).any(|three| three[0] == three[2]) { 10 } else { 11 }
    }

    fn put_table<const N: usize>(&self, out: &mut [u8]) {
        let cells = self.signs.iter().zip(&self.materials).zip(&self.rows).zip(&self.wings);
        for (record, (((&sign, &material), &row), wings)) in out.chunks_exact_mut(2 * (2 * N + 2)).zip(cells) {
            put(record, 0, sign);
            put(record, 1, material);
            put_row(&mut record[4..4 + 2 * N], row);
            for a in 0..N {
                put(record, 2 + N + a, wings[a]);
            }
        }
    }

    /// The place of a vertex in ascending order is how many of its cell's vertices are below it.
    fn put_uploaded<const N: usize>(&self, cells: &[u8], out: &mut [u8]) {
        let cells = cells.chunks_exact(2 * (N + 2)).zip(&self.rows).zip(&self.wings);
        for (uploaded, ((cell, &sorted), wings)) in out.chunks_exact_mut(2 * N).zip(cells) {
            let x: [u16; N] = std::array::from_fn(|a| word(cell, 2 + a));
            // Looking pays where the row is one load.
            let in_order = N > 6 && rows::row::<N>(cell, 2) == sorted;
            for a in 0..N {
                let place = if in_order { a } else { x.iter().filter(|&&y| y < x[a]).count() };
                put(uploaded, a, wings[place & 7]);
            }
        }
    }
}
