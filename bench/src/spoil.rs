//! Faults for random calls.

use crate::calls::Job;
use crate::solids::{Cell, Random};

/// A fault in a list, or a change that may be one.
pub fn spoil_list(random: &mut Random, v: usize, cells: &mut [Cell]) {
    let (p, q) = (random.below(cells.len()), random.below(cells.len()));
    let (i, j) = (2 + random.below(cells[p].len() - 2), 2 + random.below(cells[p].len() - 2));
    match random.below(7) {
        0 => cells[p][0] = random.pick(&[2, 3, 256, 32768, 65535]),
        1 => cells[p][i] = random.pick(&[v as u16, v as u16 + 1, 4096, 32768, 65535]),
        2 => cells[p][i] = cells[p][j],
        3 => cells[p] = [&cells[q][..1], &cells[p][1..2], &cells[q][2..].iter().rev().copied().collect::<Cell>()].concat(),
        4 => cells[p][0] ^= 1,
        5 => cells[p][1] = random.pick(&[999, 1000, 1001, 1024, 32768, 65535]),
        _ => cells[p][i] = random.below(v) as u16,
    }
}

/// A fault in a table, or a change that may be one.
pub fn spoil_table(random: &mut Random, d: usize, v: usize, s: usize, table: &mut [u8]) {
    let size = 2 * d + 4;
    let mut words: Vec<u16> = table.chunks_exact(2).map(|b| u16::from_le_bytes([b[0], b[1]])).collect();
    let (p, q) = (random.below(s) * size, random.below(s) * size);
    let (i, j) = (p + random.below(size), p + random.below(size));
    match random.below(10) {
        0 => words[i] = random.pick(&[0, 1, 2, 4095, 4096, 32768, 65534, 65535]),
        1 => words[i] = words[i].wrapping_add(random.pick(&[1, 2, 65535])),
        2 => words[i] = random.below(v.max(s) + 1) as u16,
        3 => words.swap(i, j),
        4 => (0..size).for_each(|k| words.swap(p + k, q + k)),
        5 => words.copy_within(p..p + size, q),
        6 => words.chunks_mut(size).for_each(|record| record[0] ^= 1), // as sound as before
        7 => part(&mut words, size, p + d + 3 + random.below(d + 1), true),
        8 => part(&mut words, size, p + d + 3 + random.below(d + 1), false),
        _ => words[p + 1] = random.pick(&[0, 999, 1000, 1024, 32768, 65535]), // the first two as sound as before
    }
    for (b, word) in table.chunks_exact_mut(2).zip(words) {
        b.copy_from_slice(&word.to_le_bytes());
    }
}

/// Empties a wing, and perhaps the wing back.
fn part(words: &mut [u16], size: usize, at: usize, back: bool) {
    let (p, q) = (at / size, std::mem::replace(&mut words[at], 65535) as usize);
    if back && (q + 1) * size <= words.len() {
        let wings = &mut words[q * size + size / 2 + 1..(q + 1) * size];
        wings.iter_mut().filter(|wing| **wing as usize == p).for_each(|wing| *wing = 65535);
    }
}

/// Another number for one of the call's numbers.
pub fn spoil_numbers(random: &mut Random, job: &mut Job) {
    let number = random.pick(&[0, 1, 7, 8, 64, 65, 4095, 4096, 4097, 65536, u32::MAX]);
    match random.below(6) {
        0 => job.d = number,
        1 => job.d = job.d.wrapping_add(random.pick(&[1, u32::MAX])),
        2 => job.v = number,
        3 => job.v = job.v.wrapping_sub(1),
        4 => job.s = if random.chance(50) { number } else { job.s.wrapping_add(random.pick(&[1, u32::MAX])) },
        _ => job.h = number,
    }
}

/// A longer or shorter input.
pub fn spoil_length(random: &mut Random, input: &mut Vec<u8>) {
    let n = input.len();
    input.resize(random.pick(&[n.saturating_sub(1), n + 1, n.saturating_sub(2), n + 2, 0, 1, n / 2, 2 * n]), 1);
}
