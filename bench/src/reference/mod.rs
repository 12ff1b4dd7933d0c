//! The three calls in plain Rust, written for speed: from bytes to bytes, one copy of the code for each dimension,
//! memory kept from call to call. In its parts N is the count of a cell's vertices, d + 1.

mod faces;
mod rows;
mod slots;
mod sound;
mod sweep;
mod wing;

use crate::calls::{Call, Job};
use rows::Row;
use slots::Slots;

pub const EMPTY: u16 = 65535;
/// Most vertices, and most cells.
pub const MOST: usize = 4096;
pub const MOST_MATERIAL: u16 = 999;

/// The number of a refusal.
pub type Refusal = u8;

fn refuse_if(bad: bool, number: Refusal) -> Result<(), Refusal> {
    if bad { Err(number) } else { Ok(()) }
}

/// What a call works in, with room for the largest solid. The face of cell p at position a is number 8 p + a.
pub struct Reference {
    signs: Vec<u16>,
    materials: Vec<u16>,
    rows: Vec<Row>,
    wings: Vec<[u16; 8]>,
    slots: Slots,
}

/// Calls a method for N = d + 1.
macro_rules! by_dimension {
    ($d:expr, $self:ident.$f:ident $arguments:tt, $($case:literal)*) => {
        match $d {
            $($case => $self.$f::<{ $case + 1 }> $arguments,)*
            _ => unreachable!("within the limits"),
        }
    };
}

/// Whether the numbers are within the limits; without vertices there are no cells.
fn within(d: usize, greatest: usize, v: usize, s: usize) -> bool {
    d <= greatest && v <= MOST && s <= MOST && (v > 0 || s == 0)
}

impl Default for Reference {
    fn default() -> Reference {
        let words = || vec![0; MOST];
        Reference { signs: words(), materials: words(), rows: vec![0; MOST], wings: vec![[EMPTY; 8]; MOST], slots: Slots::default() }
    }
}

impl Reference {
    /// A call like the library's: the count of words written, or minus the number of the refusal. The further buffer is for
    /// wing only.
    pub fn call(&mut self, job: &Job, input: &[u8], out: &mut [u8], further: &mut [u8]) -> i64 {
        let (d, v, s, h) = (job.d as usize, job.v as usize, job.s as usize, job.h as usize);
        let answer = match job.call {
            Call::Wing => self.wing(d, v, s, input, out, further),
            Call::Sweep => self.sweep(d, v, s, h, input, out),
            Call::Faces => self.faces(d, v, s, input, out),
        };
        answer.map_or_else(|number| -(number as i64), |count| count as i64)
    }

    pub fn wing(
        &mut self, d: usize, v: usize, s: usize, cells: &[u8], out: &mut [u8], uploaded: &mut [u8],
    ) -> Result<usize, Refusal> {
        refuse_if(!within(d, 7, v, s), 2)?;
        refuse_if(cells.len() != 2 * s * (d + 3), 3)?;
        by_dimension!(d, self.wing_of(v, s, cells, out, uploaded), 0 1 2 3 4 5 6 7)
    }

    pub fn sweep(&mut self, d: usize, v: usize, s: usize, h: usize, table: &[u8], out: &mut [u8]) -> Result<usize, Refusal> {
        refuse_if(!within(d, 6, v, s) || !(1..=64).contains(&h), 2)?;
        refuse_if(table.len() != 2 * s * (2 * d + 4), 3)?;
        refuse_if((h + 1) * v > MOST || h * s * (d + 1) > MOST, 12)?;
        by_dimension!(d, self.sweep_of(v, s, h, table, out), 0 1 2 3 4 5 6)
    }

    pub fn faces(&mut self, d: usize, v: usize, s: usize, table: &[u8], out: &mut [u8]) -> Result<usize, Refusal> {
        refuse_if(!within(d, 7, v, s), 2)?;
        refuse_if(table.len() != 2 * s * (2 * d + 4), 3)?;
        by_dimension!(d, self.faces_of(v, s, table, out), 0 1 2 3 4 5 6 7)
    }

    /// Whether two of the s cells are on the same vertices.
    fn repeated(&mut self, s: usize) -> bool {
        let (rows, mut set) = (&self.rows, self.slots.set(s));
        (0..s).any(|p| set.find_or_put(rows::hash(rows[p]), p, |q| rows[q] == rows[p]).is_some())
    }
}
