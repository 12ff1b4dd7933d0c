//! Random calls, accepted and refused: both sides must give the same answer and leave the same bytes.

use crate::both::{Both, Lent, ROOM};
use crate::calls::{Call, Job, CALLS};
use crate::solids::{bytes, grid, shuffled, Cell, Random};
use crate::spoil::{spoil_length, spoil_list, spoil_numbers, spoil_table};

/// Cells on any vertices, often refused.
fn scattered(random: &mut Random, d: usize, s: usize) -> (Vec<Cell>, usize) {
    let most = random.pick(&[4, 4000]);
    let v = d + 1 + random.below(most);
    let cell = |random: &mut Random| {
        let mut vertices: Vec<u16> = vec![];
        while vertices.len() <= d {
            let x = random.below(v) as u16;
            if !vertices.contains(&x) {
                vertices.push(x);
            }
        }
        [&[random.below(2) as u16, 0], &vertices[..]].concat()
    };
    ((0..s).map(|_| cell(random)).collect(), v)
}

/// Cells put on free faces of others, mostly with a new vertex; accepted unless an old one fits badly.
fn grown(random: &mut Random, d: usize, s: usize) -> (Vec<Cell>, usize) {
    let mut cells: Vec<Cell> = vec![[0, 0].into_iter().chain(0..=d as u16).collect()];
    let mut free: Vec<(usize, usize)> = (0..=d).map(|a| (0, a)).collect();
    let (mut v, old) = (d + 1, random.pick(&[0, 0, 5, 20]));
    while cells.len() < s && v < 4096 && !free.is_empty() {
        let (p, a) = free.swap_remove(random.below(free.len()));
        let x = if random.chance(old) { random.below(v) } else { v };
        let mut cell = cells[p].clone();
        if cell[2..].contains(&(x as u16)) {
            continue;
        }
        cell[0] ^= 1;
        cell[2 + a] = x as u16;
        v = v.max(x + 1);
        free.extend((0..=d).filter(|&b| b != a || d == 0).map(|b| (cells.len(), b)));
        cells.push(cell);
    }
    (cells, v)
}

/// The boundary of a simplex, which has no empty wing, perhaps less a few cells.
fn sphere(random: &mut Random, d: usize) -> (Vec<Cell>, usize) {
    let cell = |lacks: usize| [(lacks % 2) as u16, 0].into_iter().chain((0..d as u16 + 2).filter(|&x| x as usize != lacks)).collect();
    let least = if d == 0 { d + 2 } else { 1 + random.below(d + 2) };
    ((0..least).map(cell).collect(), d + 2)
}

/// Gives each cell a material: any, one at an edge, or the same for all.
fn name_materials(random: &mut Random, cells: &mut [Cell]) {
    let (kind, one) = (random.below(4), random.below(1000) as u16);
    for cell in cells {
        cell[1] = match kind {
            0 => one,
            1 => random.pick(&[0, 1, 255, 256, 998, 999]),
            _ => random.below(1000) as u16,
        };
    }
}

/// A solid, one in twenty without cells.
fn solid(random: &mut Random, d: usize) -> (Vec<Cell>, usize) {
    if random.chance(5) {
        return (vec![], random.pick(&[0, 0, 1, 7, 64, 2048, 4096]));
    }
    let s = if random.below(60) == 0 { random.pick(&[300, 585, 1024, 2048, 4000, 4095, 4096]) } else { 1 + random.below(14) };
    let (mut cells, v) = match random.below(8) {
        0 => scattered(random, d, s),
        1 => sphere(random, d),
        2 | 3 if d > 0 => grid(d, s.min(4095)),
        _ => grown(random, d, s),
    };
    name_materials(random, &mut cells);
    if random.chance(70) { (shuffled(&cells, v, random), v) } else { (cells, v) }
}

/// A table for cells that may be refused: sorted, without wings.
fn bare_table(d: usize, cells: &[Cell]) -> Vec<u8> {
    let record = |cell: &Cell| {
        let mut vertices = cell[2..].to_vec();
        vertices.sort();
        [&cell[..2], &vertices, &vec![65535; d + 1]].concat()
    };
    bytes(&cells.iter().map(record).collect::<Vec<_>>())
}

/// A call and its input.
fn case(random: &mut Random, both: &mut Both) -> (Job, Vec<u8>) {
    let call = random.pick(&CALLS);
    let d = random.below(if call == Call::Sweep { 7 } else { 8 });
    let (mut cells, mut v) = solid(random, d);
    let s = cells.len();
    if random.chance(30) {
        v = random.pick(&[v, v + 1, 2048, 4096]).max(v).min(4096);
    }
    let faults = if s == 0 { 0 } else { random.pick(&[0, 0, 1, 1, 2]) };
    if call == Call::Wing || random.chance(10) {
        (0..faults).for_each(|_| spoil_list(random, v, &mut cells));
    }
    let mut input = bytes(&cells);
    if call != Call::Wing {
        input = both.table(d, v, s, &input).unwrap_or_else(|_| bare_table(d, &cells));
        (0..faults).for_each(|_| spoil_table(random, d, v, s, &mut input));
    }
    // Often as many steps as the limits allow, or one more.
    let most = (4096 / v.max(1)).saturating_sub(1).min(4096 / (s.max(1) * (d + 1))).min(64);
    let h = if random.chance(60) { 1 + random.below(4) } else { most + random.below(2) };
    let mut job = Job::new(call, d, v, s, h);
    if random.chance(8) {
        spoil_numbers(random, &mut job);
    }
    if random.chance(6) {
        spoil_length(random, &mut input);
    }
    (job, input)
}

/// A buffer to lend for an answer of so many bytes, perhaps too short. Bytes behind it must stay too.
fn lent(random: &mut Random, bytes: usize) -> Lent {
    let room = match random.below(6) {
        0 | 1 => bytes,
        2 => bytes.saturating_sub(1 + random.below(2)),
        3 => random.below(bytes + 1),
        _ => bytes + random.below(300),
    };
    Lent { bytes: (0..room + 40).map(|i| (i * 89 + room) as u8).collect(), room }
}

/// Runs so many cases, and sees to it that every answer there is came up.
pub fn run(both: &mut Both, cases: usize) {
    let mut random = Random(0x1234_5678_9abc_def1);
    let mut seen = [[0usize; 19]; 3];
    let (mut whole, mut further) = (vec![0; ROOM], vec![0; ROOM]);
    for _ in 0..cases {
        let (job, input) = case(&mut random, both);
        let answer = both.reference.call(&job, &input, &mut whole, &mut further);
        let wings = || 2 * (job.s * (job.d + 1)) as usize;
        let needed = if answer < 0 { [input.len(); 2] } else { [2 * answer as usize, wings()] };
        let answer = both.compare(&job, &input, needed.map(|bytes| lent(&mut random, bytes)));
        seen[job.call as usize][if answer < 0 { -answer as usize } else { 0 }] += 1;
    }
    println!("{cases} random calls; accepted, and refused by number");
    for call in CALLS {
        let seen = seen[call as usize];
        let refused: String = call.refusals().iter().map(|&number| format!("  {number}: {}", seen[number as usize])).collect();
        println!("{:5} {:6}{refused}", call.name(), seen[0]);
        both.count(seen[0] > 0 && call.refusals().iter().all(|&number| seen[number as usize] > 0), || format!("{}: an answer never came up", call.name()));
    }
    println!();
}
