//! Safe functions over the proved library of winged solids: [`read`], [`wing`], [`sweep`], [`move_points`], [`faces`],
//! [`list`] and [`key`].
//!
//! Words are 16 bits. A list of cells holds a sign word (0 plus, 1 minus), a material (0 to 999) and d + 1 vertices a
//! cell; a table holds a sign word, a material, d + 1 ascending vertices and d + 1 wings a cell, 65535 for none; a face
//! is a sign word, d vertices and the material of its cell. Points are floats, n for each vertex. A solid may be without
//! cells, and only then without vertices. Its list and its table are then empty. Before version 1.4 there were no
//! materials: lists, tables and faces have a word more a record since, and [`list`] takes the version first.
//!
//! ```
//! // a segment from vertex 0 to vertex 1, of material 7, swept in one step, and the boundary of that square
//! let table = winged::wing(1, 2, 1, &[0, 7, 0, 1])?.table;
//! let swept = winged::sweep(1, 2, 1, 1, &table)?;
//! let faces = winged::faces(2, 4, 2, &swept)?;
//! assert_eq!(faces, [1, 0, 2, 7, 0, 0, 1, 7, 1, 2, 3, 7, 0, 1, 3, 7]);
//! # Ok::<(), winged::Refusal>(())
//! ```

use std::fmt;

mod ffi {
    extern "C" {
        pub fn winged_wing(
            d: u32, v: u32, s: u32, cells: *const u8, cells_len: usize, table: *mut u8, table_len: usize,
            uploaded: *mut u8, uploaded_len: usize,
        ) -> i64;
        pub fn winged_sweep(d: u32, v: u32, s: u32, h: u32, table: *const u8, table_len: usize, swept: *mut u8, swept_len: usize) -> i64;
        pub fn winged_read(
            file: *const u8, file_len: usize, header: *mut u8, header_len: usize, cells: *mut u8, cells_len: usize, points: *mut u8,
            points_len: usize,
        ) -> i64;
        pub fn winged_move(
            n: u32, v: u32, h: u32, kind: u32, axis: u32, other: u32, a: u64, b: u64, c: u64, points: *const u8, points_len: usize,
            levels: *mut u8, levels_len: usize,
        ) -> i64;
        pub fn winged_list(
            version: u32, d: u32, n: u32, v: u32, s: u32, table: *const u8, table_len: usize, points: *const u8, points_len: usize,
            text: *mut u8, text_len: usize,
        ) -> i64;
        pub fn winged_key(file: *const u8, file_len: usize, text: *mut u8, text_len: usize) -> i64;
        pub fn winged_faces(d: u32, v: u32, s: u32, table: *const u8, table_len: usize, faces: *mut u8, faces_len: usize) -> i64;
    }
}

/// The wing word for no neighbour.
pub const EMPTY: u16 = 65535;

/// Why a call says no, by its number in the refusal table.
#[derive(Clone, Copy, Debug, PartialEq, Eq)]
pub enum Refusal {
    NotOurs = 1,
    OutsideLimits = 2,
    WrongLength = 3,
    FloatRange = 4,
    StepUnfit = 5,
    BadSign = 6,
    BadVertex = 7,
    VertexTwice = 8,
    CellTwice = 9,
    CrowdedFace = 10,
    EqualSigns = 11,
    SweptTooLarge = 12,
    MovedOutOfRange = 13,
    Unsound = 14,
    NoRoom = 15,
    StaysInPlane = 17,
    BadMaterial = 18,
}

impl Refusal {
    fn of(number: i64) -> Refusal {
        use Refusal::*;
        [
            NotOurs, OutsideLimits, WrongLength, FloatRange, StepUnfit, BadSign, BadVertex, VertexTwice, CellTwice, CrowdedFace,
            EqualSigns, SweptTooLarge, MovedOutOfRange, Unsound, NoRoom, StaysInPlane, BadMaterial,
        ]
        .into_iter()
        .find(|&r| r as i64 == number)
        .unwrap_or_else(|| unreachable!("no other number comes: {number}"))
    }
}

impl fmt::Display for Refusal {
    fn fmt(&self, f: &mut fmt::Formatter) -> fmt::Result {
        let reason = match self {
            Refusal::NotOurs => "the file is too short, or its mark or version is wrong",
            Refusal::OutsideLimits => "a number is outside its limits, or there are cells and no vertices",
            Refusal::WrongLength => "a length is not what the numbers say",
            Refusal::FloatRange => "a float is not finite, or of magnitude 1,048,576 or above",
            Refusal::StepUnfit => "the step does not fit its space, or an unused part is not zero",
            Refusal::BadSign => "a sign is not one of the two",
            Refusal::BadVertex => "a vertex number is not below the count of vertices",
            Refusal::VertexTwice => "a vertex stands twice in a cell",
            Refusal::CellTwice => "two cells are on the same vertices",
            Refusal::CrowdedFace => "a face is in three or more cells",
            Refusal::EqualSigns => "two cells share a face with equal signs",
            Refusal::SweptTooLarge => "the sweep has over 4,096 vertices or cells",
            Refusal::MovedOutOfRange => "a moved coordinate leaves the range",
            Refusal::Unsound => "the table is not sound: it is not the table of its own cells, or has a material above 999",
            Refusal::NoRoom => "an output is shorter than the answer",
            Refusal::StaysInPlane => "the step does not leave the plane of the points",
            Refusal::BadMaterial => "a material is above 999",
        };
        write!(f, "refused {}: {reason}", *self as u8)
    }
}

impl std::error::Error for Refusal {}

fn bytes(words: &[u16]) -> Vec<u8> {
    words.iter().flat_map(|w| w.to_le_bytes()).collect()
}

fn words(bytes: &[u8]) -> Vec<u16> {
    bytes.chunks_exact(2).map(|b| u16::from_le_bytes([b[0], b[1]])).collect()
}

/// Runs a call on the words' bytes with room for so many words, and gives what it wrote.
fn call(input: &[u16], room: usize, job: impl FnOnce(&[u8], &mut [u8]) -> i64) -> Result<Vec<u16>, Refusal> {
    let mut out = vec![0u8; 2 * room];
    let count = answered(job(&bytes(input), &mut out))?;
    Ok(words(&out[..2 * count]))
}

/// Words of a table of `s` cells of dimension `d`; numbers beyond the limits are refused before any room is used.
fn table_room(d: u32, s: usize) -> usize {
    s.min(4096) * (2 * d.min(7) as usize + 4)
}

/// What [`wing`] writes.
#[derive(Clone, Debug, PartialEq, Eq)]
pub struct Winged {
    /// The table.
    pub table: Vec<u16>,
    /// The wings in uploaded order, d + 1 a cell: wing j is the neighbour at the face that lacks the vertex at place j
    /// of the cell in the list, 65535 for none.
    pub uploaded: Vec<u16>,
}

/// The table of a list of `s` cells of dimension `d` on `v` vertices, and the wings in the order in which each cell's
/// vertices stand in the list.
///
/// ```
/// // four triangles: +(2 0 1) of material 5, -(0 1 3), -(1 2 4) and +(0 2 5)
/// let winged = winged::wing(2, 6, 4, &[0, 5, 2, 0, 1, 1, 0, 0, 1, 3, 1, 0, 1, 2, 4, 0, 0, 0, 2, 5])?;
/// // the first is +(0 1 2) in the table: cell 2 is across from vertex 0, cell 3 from vertex 1, cell 1 from vertex 2
/// assert_eq!(winged.table[..8], [0, 5, 0, 1, 2, 2, 3, 1]);
/// assert_eq!(winged.uploaded[..3], [1, 2, 3]);
/// # Ok::<(), winged::Refusal>(())
/// ```
pub fn wing(d: u32, v: u32, s: u32, cells: &[u16]) -> Result<Winged, Refusal> {
    let mut uploaded = vec![0u8; 2 * (s as usize).min(4096) * (d.min(7) as usize + 1)];
    let table = call(cells, table_room(d, s as usize), |input, out| {
        // SAFETY: all buffers are valid for their lengths and do not overlap.
        unsafe {
            ffi::winged_wing(
                d, v, s, input.as_ptr(), input.len(), out.as_mut_ptr(), out.len(), uploaded.as_mut_ptr(),
                uploaded.len(),
            )
        }
    })?;
    Ok(Winged { table, uploaded: words(&uploaded) })
}

/// The table of the sweep of a table in `h` steps.
pub fn sweep(d: u32, v: u32, s: u32, h: u32, table: &[u16]) -> Result<Vec<u16>, Refusal> {
    let cells = (s as usize).saturating_mul(h as usize).saturating_mul(d as usize + 1);
    call(table, table_room(d.saturating_add(1), cells), |input, out| {
        // SAFETY: as for wing.
        unsafe { ffi::winged_sweep(d, v, s, h, input.as_ptr(), input.len(), out.as_mut_ptr(), out.len()) }
    })
}

/// The boundary faces of a table.
pub fn faces(d: u32, v: u32, s: u32, table: &[u16]) -> Result<Vec<u16>, Refusal> {
    let corners = d.min(7) as usize + 1;
    call(table, (s as usize).min(4096) * corners * (corners + 1), |input, out| {
        // SAFETY: as for wing.
        unsafe { ffi::winged_faces(d, v, s, input.as_ptr(), input.len(), out.as_mut_ptr(), out.len()) }
    })
}

/// A step: an amount added on an axis, on two axes, or a turn of the first two axes that rises on the last.
#[derive(Clone, Copy, Debug, PartialEq)]
pub enum Step {
    Slide { axis: u32, amount: f64 },
    Slant { axis: u32, amount: f64, other: u32, other_amount: f64 },
    Turn { cosine: f64, sine: f64, rise: f64 },
}

/// What a file says.
#[derive(Clone, Debug, PartialEq)]
pub struct File {
    /// 1, or 2 for a file with materials.
    pub version: u32,
    pub d: u32,
    pub n: u32,
    pub v: u32,
    pub s: u32,
    pub h: u32,
    pub step: Step,
    /// The list of cells.
    pub cells: Vec<u16>,
    pub points: Vec<f64>,
}

fn float_bytes(floats: &[f64]) -> Vec<u8> {
    floats.iter().flat_map(|x| x.to_le_bytes()).collect()
}

fn floats(bytes: &[u8]) -> Vec<f64> {
    bytes.chunks_exact(8).map(|b| f64::from_le_bytes(b.try_into().unwrap())).collect()
}

/// The count that a call answers, or its refusal.
fn answered(answer: i64) -> Result<usize, Refusal> {
    usize::try_from(answer).map_err(|_| Refusal::of(-answer))
}

/// Reads a file's bytes.
pub fn read(file: &[u8]) -> Result<File, Refusal> {
    let mut header = [0u8; 42];
    let mut cells = vec![0u8; 73728];
    let mut points = vec![0u8; 262144];
    // SAFETY: all buffers are valid for their lengths and do not overlap.
    let count = answered(unsafe {
        ffi::winged_read(
            file.as_ptr(), file.len(), header.as_mut_ptr(), header.len(), cells.as_mut_ptr(), cells.len(), points.as_mut_ptr(),
            points.len(),
        )
    })?;
    let word = |k: usize| u32::from(u16::from_le_bytes([header[2 * k], header[2 * k + 1]]));
    let [d, n, v, s, h, kind, axis, other] = std::array::from_fn(word);
    let (amounts, version) = (floats(&header[16..40]), word(20));
    let (a, b, c) = (amounts[0], amounts[1], amounts[2]);
    let step = match kind {
        1 => Step::Slide { axis, amount: a },
        2 => Step::Slant { axis, amount: a, other, other_amount: b },
        _ => Step::Turn { cosine: a, sine: b, rise: c },
    };
    Ok(File { version, d, n, v, s, h, step, cells: words(&cells[..2 * count]), points: floats(&points[..8 * (v * n) as usize]) })
}

/// The points of levels 0 to `h`: `v` points of `n` axes, moved `h` times. On one axis that a slide or slant moves, or on
/// the last for a turn, all points must have one value, which rises at every step, or falls at every step.
pub fn move_points(n: u32, v: u32, h: u32, step: Step, points: &[f64]) -> Result<Vec<f64>, Refusal> {
    let (kind, axis, other, a, b, c) = match step {
        Step::Slide { axis, amount } => (1, axis, 0, amount, 0.0, 0.0),
        Step::Slant { axis, amount, other, other_amount } => (2, axis, other, amount, other_amount, 0.0),
        Step::Turn { cosine, sine, rise } => (3, 0, 0, cosine, sine, rise),
    };
    let input = float_bytes(points);
    let mut levels = vec![0u8; 262144];
    // SAFETY: as for read.
    let count = answered(unsafe {
        ffi::winged_move(
            n, v, h, kind, axis, other, a.to_bits(), b.to_bits(), c.to_bits(), input.as_ptr(), input.len(), levels.as_mut_ptr(),
            levels.len(),
        )
    })?;
    Ok(floats(&levels[..8 * count]))
}

/// The key's text of a table and its points; 2 MB hold the longest. Coordinates have three decimals; of two equally
/// near thousandths the even one is written. In `version` 2 the line of a face ends with its material; version 1 leaves
/// materials out, and there is no other.
pub fn list(version: u32, d: u32, n: u32, v: u32, s: u32, table: &[u16], points: &[f64]) -> Result<String, Refusal> {
    let (table, points) = (bytes(table), float_bytes(points));
    let mut text = vec![0u8; 1 << 21];
    // SAFETY: as for read.
    let count = answered(unsafe {
        ffi::winged_list(
            version, d, n, v, s, table.as_ptr(), table.len(), points.as_ptr(), points.len(), text.as_mut_ptr(), text.len(),
        )
    })?;
    text.truncate(count);
    Ok(String::from_utf8(text).expect("a key is ASCII"))
}

/// What the program `key` prints for a file's bytes: its key, or the line `refused` with a number.
pub fn key(file: &[u8]) -> String {
    let mut text = vec![0u8; 65536];
    // SAFETY: as for read.
    let count = unsafe { ffi::winged_key(file.as_ptr(), file.len(), text.as_mut_ptr(), text.len()) };
    text.truncate(usize::try_from(count).expect("65,536 bytes are enough"));
    String::from_utf8(text).expect("a key is ASCII")
}
