//! The three calls of the proved library, and what is told to either side.

#[derive(Clone, Copy, Debug, PartialEq)]
pub enum Call {
    Wing,
    Sweep,
    Faces,
}

pub const CALLS: [Call; 3] = [Call::Wing, Call::Sweep, Call::Faces];

impl Call {
    pub fn name(self) -> &'static str {
        match self {
            Call::Wing => "wing",
            Call::Sweep => "sweep",
            Call::Faces => "faces",
        }
    }

    /// The refusals that it has, in the order in which they are tried.
    pub fn refusals(self) -> &'static [u8] {
        match self {
            Call::Wing => &[2, 3, 6, 7, 8, 18, 9, 10, 11, 15],
            Call::Sweep => &[2, 3, 12, 14, 15],
            Call::Faces => &[2, 3, 14, 15],
        }
    }
}

/// A call and its numbers; h is for sweep only.
#[derive(Clone, Copy, Debug)]
pub struct Job {
    pub call: Call,
    pub d: u32,
    pub v: u32,
    pub s: u32,
    pub h: u32,
}

impl Job {
    pub fn new(call: Call, d: usize, v: usize, s: usize, h: usize) -> Job {
        Job { call, d: d as u32, v: v as u32, s: s as u32, h: h as u32 }
    }
}

extern "C" {
    fn winged_wing(
        d: u32, v: u32, s: u32, cells: *const u8, cells_len: usize, table: *mut u8, table_len: usize,
        uploaded: *mut u8, uploaded_len: usize,
    ) -> i64;
    fn winged_sweep(d: u32, v: u32, s: u32, h: u32, table: *const u8, table_len: usize, swept: *mut u8, swept_len: usize) -> i64;
    fn winged_faces(d: u32, v: u32, s: u32, table: *const u8, table_len: usize, faces: *mut u8, faces_len: usize) -> i64;
}

/// The library's answer: the count of words written, for wing those of the table, or minus the number of the refusal.
/// The further buffer is for wing only.
pub fn library(job: &Job, input: &[u8], out: &mut [u8], further: &mut [u8]) -> i64 {
    let Job { call, d, v, s, h } = *job;
    let (from, from_len, to, to_len) = (input.as_ptr(), input.len(), out.as_mut_ptr(), out.len());
    // SAFETY: all buffers are valid for their lengths and do not overlap.
    unsafe {
        match call {
            Call::Wing => winged_wing(d, v, s, from, from_len, to, to_len, further.as_mut_ptr(), further.len()),
            Call::Sweep => winged_sweep(d, v, s, h, from, from_len, to, to_len),
            Call::Faces => winged_faces(d, v, s, from, from_len, to, to_len),
        }
    }
}
