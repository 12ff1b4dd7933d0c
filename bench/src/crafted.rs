//! Solids made to be slow, with full knowledge of the library's hashes. First it puts faces into buckets by one hash,
//! or a table's by a hash of their codes (crates/soundness), and gives up where more than d + 9, or 16, in a bucket are to
//! be looked at: the last cells of a solid have a face each in one bucket, so that all was for nothing. Then it looks a
//! face up in one of 32,749 buckets (crates/matching): the sum of weights of its vertices, modulo that. Among cells whose
//! vertices have one sum, all faces without vertex x are in one bucket. So cells of one sum on few vertices have as few
//! buckets, and a face would be compared with thousands.

use crate::both::{Both, Lent};
use crate::calls::{Call, Job};
use crate::solids::{bytes, grid, reordered, shuffled, Cell, Random};
use std::collections::HashSet;

const BUCKETS: usize = 32749;
const CELLS: usize = 4096;

/// The weight of a vertex, as in crates/matching.
fn weight(v: usize) -> usize {
    v * (v * (v + 5903) + 12421) % BUCKETS
}

/// A vertex and its weight times some factor and less some amount, which keep equal sums equal.
type Weighed = (usize, usize);

/// The n vertices whose weights are closest together by one of many factors, lightest first.
fn closest(n: usize) -> Vec<Weighed> {
    let spread = |group: &[Weighed]| group[n - 1].1 - group[0].1;
    let mut best: Vec<Weighed> = (0..n).map(|i| (0, i * BUCKETS)).collect();
    for factor in 1..1000 {
        let mut all: Vec<Weighed> = (0..4096).map(|v| (v, weight(v) * factor % BUCKETS)).collect();
        all.sort_unstable_by_key(|x| x.1);
        all.dedup_by_key(|x| x.1); // else two cells may share a face, with equal signs
        let group = all.windows(n).min_by_key(|group| spread(group)).unwrap();
        if spread(group) < spread(&best) {
            best = group.to_vec();
        }
    }
    let least = best[0].1;
    best.iter().map(|&(v, w)| (v, w - least)).collect()
}

/// How many sets of k of these have each sum.
fn counts(of: &[Weighed], k: usize) -> Vec<usize> {
    let most: usize = of.iter().map(|x| x.1).sum();
    let mut sets = vec![vec![0; most + 1]; k + 1];
    sets[0][0] = 1;
    for &(_, w) in of {
        for size in (1..=k).rev() {
            for sum in w..=most {
                sets[size][sum] += sets[size - 1][sum - w];
            }
        }
    }
    sets.pop().unwrap()
}

/// Adds sets of k of these that have that sum, as plus cells of one material, until there are enough.
fn choose(of: &[Weighed], k: usize, sum: usize, chosen: &mut Cell, found: &mut Vec<Cell>) {
    if k == 0 && sum == 0 {
        found.push(chosen.clone());
    }
    // What is left ascends: its k lightest may be too heavy, its k heaviest too light.
    let total = |part: &[Weighed]| part.iter().map(|x| x.1).sum::<usize>();
    if k == 0 || of.len() < k || found.len() == CELLS || total(&of[..k]) > sum || total(&of[of.len() - k..]) < sum {
        return;
    }
    chosen.push(of[0].0 as u16);
    choose(&of[1..], k - 1, sum - of[0].1, chosen, found);
    chosen.pop();
    choose(&of[1..], k, sum, chosen, found);
}

/// 4,096 cells of one sum, on n vertices or as few more as are needed.
fn crafted(d: usize, n: usize) -> Vec<Cell> {
    let of = closest(n);
    let counts = counts(&of, d + 1);
    let sum = (0..counts.len()).max_by_key(|&sum| counts[sum]).unwrap();
    if counts[sum] < CELLS {
        return crafted(d, n + 1 + n / 16);
    }
    let mut found = vec![];
    choose(&of, d + 1, sum, &mut vec![0, 7], &mut found);
    found
}

/// The bucket of a face by the first hash, of 65,536: more than the library ever has.
fn first_bucket(face: &[u16]) -> u64 {
    let term = |&x: &u16| x as u64 * (x as u64 * (x as u64 + 123456789) + 362436069);
    let weight: u64 = face.iter().map(term).sum();
    ((weight & 0xffff_ffff) * 2654435769 >> 32) * 65536 >> 32
}

/// The same by the hash of its code, the number of its vertices in base 4,096, which tables up to dimension 4 go by.
fn code_bucket(face: &[u16]) -> u64 {
    let code = face.iter().rev().fold(0u64, |c, &x| c.wrapping_mul(4096).wrapping_add(x as u64));
    let mixed = (code & 0xffff_ffff).wrapping_mul(2654435769).wrapping_add((code >> 32).wrapping_mul(2246822519));
    (mixed & 0xffff_ffff) * 65536 >> 32
}

/// Puts cells in place of the last ones, each with a face in one bucket by the one hash or the other. The bucket lies
/// within one of 24,576, of 36,864 and of 49,152 too.
fn crowd_the_end(cells: &mut [Cell], d: usize, random: &mut Random) {
    const CROWD: usize = 20;
    let buckets: [fn(&[u16]) -> u64; 2] = [first_bucket, code_bucket];
    let at = cells.len() - CROWD * buckets.len();
    for (i, cell) in cells[at..].iter_mut().enumerate() {
        *cell = loop {
            let mut row: Vec<u16> = (0..=d).map(|_| random.below(CELLS) as u16).collect();
            row.sort_unstable();
            row.dedup();
            if row.len() == d + 1 && buckets[i / CROWD](&row[1..]) == 12352 {
                break [&[0, 7], &row[..]].concat();
            }
        };
    }
}

/// Compares and times wing and faces on crafted solids and on typical ones of the same size.
pub fn run(both: &mut Both, rounds: usize) {
    println!("\nmicroseconds on {CELLS} cells: typical, and crafted to fill few of the library's buckets, by all its hashes");
    println!("call   d      library reference      library reference   crafted / typical  on vertices");
    for (d, n) in [(3, 90), (5, 28), (7, 20)] {
        let (typical, v) = grid(d, CELLS);
        let random = &mut Random(362436069);
        let mut slow = reordered(&crafted(d, n), random);
        crowd_the_end(&mut slow, d, random);
        let solids = [(shuffled(&typical, v, random), v), (slow, CELLS)];
        let vertices = solids[1].0.iter().flat_map(|cell| &cell[2..]).collect::<HashSet<_>>().len();
        for call in [Call::Wing, Call::Faces] {
            let [a, b] = solids.each_ref().map(|(cells, v)| {
                let list = bytes(cells);
                let input = if call == Call::Wing { list } else { both.table(d, *v, CELLS, &list).expect("accepted") };
                let job = Job::new(call, d, *v, CELLS, 1);
                both.compare(&job, &input, [Lent::enough(), Lent::enough()]);
                both.least(&job, &input, rounds)
            });
            println!("{:5} {d:2} {:12.0}{:10.0} {:12.0}{:10.0} {:12.1} {:6.1} {vertices:12}", call.name(), a.0, a.1, b.0, b.1, b.0 / a.0, b.1 / a.1);
        }
    }
}
