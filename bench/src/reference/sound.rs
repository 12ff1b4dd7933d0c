//! Whether a table is sound, told from its wings. Each wing to a later cell must meet that cell at an equal face of
//! opposite sign with the wing back; if there are as many wings to earlier cells, those are right too. Then only faces
//! that no wing joins may not be equal: of each pair one face and each lone face go into a set, and none may be there.
//! Two cells on the same vertices have two equal faces or more, of which a wing joins one at most.

use super::rows::{self, ascending, hash, vertex, without, word};
use super::{refuse_if, Reference, Refusal, EMPTY, MOST_MATERIAL};

/// Where p first stands among the wings, or 32.
#[inline(always)]
pub fn place_of<const N: usize>(wings: &[u16; 8], p: usize) -> usize {
    let places = (0..N).fold(0u32, |places, b| places | ((wings[b] == p as u16) as u32) << b);
    places.trailing_zeros() as usize
}

impl Reference {
    /// Reads a table and refuses it if it is not sound.
    pub(super) fn read_sound<const N: usize>(&mut self, v: usize, s: usize, table: &[u8]) -> Result<(), Refusal> {
        let sound = self.read_table::<N>(v, table)
            && if N == 1 { self.wings[..s].iter().all(|wings| wings[0] == EMPTY) && !self.repeated(s) } else { self.wings_right::<N>(s) };
        refuse_if(!sound, 14)
    }

    /// Whether signs are 0 or 1, materials up to 999, and vertices ascend and are below v.
    fn read_table<const N: usize>(&mut self, v: usize, table: &[u8]) -> bool {
        let mut fine = true;
        let cells = self.signs.iter_mut().zip(&mut self.materials).zip(&mut self.rows).zip(&mut self.wings);
        for (record, (((sign, material), row), wings)) in table.chunks_exact(2 * (2 * N + 2)).zip(cells) {
            *sign = word(record, 0);
            *material = word(record, 1);
            *row = rows::row::<N>(record, 2);
            let wing = rows::row::<N>(record, 2 + N);
            *wings = std::array::from_fn(|a| vertex(wing, a));
            let below = (vertex(*row, N - 1) as usize) < v;
            fine &= (*sign <= 1) & (*material <= MOST_MATERIAL) & below & ascending::<N>(*row);
        }
        fine
    }

    fn wings_right<const N: usize>(&mut self, s: usize) -> bool {
        let (signs, rows, wings) = (&self.signs[..s], &self.rows[..s], &self.wings[..s]);
        let mut set = self.slots.set(s * N);
        let (mut earlier, mut later) = (0, 0);
        for p in 0..s {
            for a in 0..N {
                let (face, q) = (without::<N>(rows[p], a), wings[p][a] as usize);
                if q <= p {
                    earlier += 1;
                    continue;
                }
                if q < s {
                    later += 1;
                    let b = place_of::<N>(&wings[q], p);
                    let opposite = (signs[p] ^ signs[q] ^ (a ^ b) as u16) & 1 == 1;
                    let meet = (b < N) & opposite & (without::<N>(rows[q], b) == face);
                    if !meet {
                        return false;
                    }
                } else if q != EMPTY as usize {
                    return false;
                }
                let same = |number: usize| without::<N>(rows[number >> 3], number & 7) == face;
                if set.find_or_put(hash(face), p << 3 | a, same).is_some() {
                    return false;
                }
            }
        }
        earlier == later
    }
}
