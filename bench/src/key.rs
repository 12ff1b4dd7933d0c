//! The key of a file of version 1 or 2 in plain Rust, for good files only.

use crate::reference::Reference;
use std::io::Write;

fn short(data: &[u8], at: usize) -> usize {
    u16::from_le_bytes([data[at], data[at + 1]]) as usize
}

fn float(data: &[u8], at: usize) -> f64 {
    f64::from_le_bytes(data[at..at + 8].try_into().unwrap())
}

/// The next level of the points.
fn moved(data: &[u8], n: usize, points: &[f64]) -> Vec<f64> {
    let (kind, a, b) = (data[13], data[14] as usize, data[15] as usize);
    let (x, y, z) = (float(data, 16), float(data, 24), float(data, 32));
    let mut result = points.to_vec();
    for p in result.chunks_exact_mut(n) {
        match kind {
            1 => p[a] += x,
            2 => {
                p[a] += x;
                p[b] += y;
            }
            _ => {
                (p[0], p[1]) = (p[0] * x - p[1] * y, p[0] * y + p[1] * x);
                p[n - 1] += z;
            }
        }
    }
    result
}

/// A number with three decimals, to the nearest thousandth, a half to the even one, by the exact float.
fn decimal(x: f64, text: &mut Vec<u8>) {
    let bits = x.to_bits();
    let exponent = (bits >> 52 & 2047) as i32;
    let mantissa = if exponent == 0 { bits & ((1 << 52) - 1) } else { bits & ((1 << 52) - 1) | 1 << 52 };
    let down = 1075 - exponent.max(1);
    // What is added takes a half upwards from an odd number, and not from an even one.
    let scaled = 1000 * mantissa as u128;
    let thousandths = if down > 70 { 0 } else { (scaled + (1 << (down - 1)) - 1 + (scaled >> down & 1)) >> down };
    text.extend_from_slice(if x < 0.0 && thousandths > 0 { b" -" } else { b" " });
    digits(thousandths as usize / 1000, 1, text);
    text.push(b'.');
    digits(thousandths as usize % 1000, 3, text);
}

/// A number in so many digits at least.
fn digits(mut x: usize, least: usize, text: &mut Vec<u8>) {
    let (mut places, mut first) = ([b'0'; 20], 20);
    while x > 0 || 20 - first < least {
        first -= 1;
        places[first] = b'0' + (x % 10) as u8;
        x /= 10;
    }
    text.extend_from_slice(&places[first..]);
}

fn number(x: usize, text: &mut Vec<u8>) {
    text.push(b' ');
    digits(x, 1, text);
}

/// The key of a good file.
pub fn key(data: &[u8]) -> Vec<u8> {
    let (d, n, v, s, h) = (data[5] as usize, data[6] as usize, short(data, 7), short(data, 9), short(data, 11));
    let mut points: Vec<f64> = (0..v * n).map(|i| float(data, 40 + 8 * i)).collect();
    let named = data[3] == 2; // a cell has a material
    let mut cells: Vec<u8> = vec![];
    for cell in data[40 + 8 * v * n..].chunks_exact(2 * d + if named { 5 } else { 3 }) {
        cells.extend([(cell[0] == b'-') as u8, 0]);
        cells.extend(if named { &cell[1..3] } else { &[0, 0] });
        cells.extend(&cell[cell.len() - 2 * (d + 1)..]);
    }
    let (mut table, mut uploaded) = (vec![0; 1 << 17], vec![0; 1 << 16]);
    let (mut swept, mut faces) = (vec![0; 1 << 17], vec![0; 1 << 18]);
    let mut reference = Reference::default();
    let count = reference.wing(d, v, s, &cells, &mut table, &mut uploaded).unwrap();
    let count = reference.sweep(d, v, s, h, &table[..2 * count], &mut swept).unwrap();
    let (vertices, all) = ((h + 1) * v, s * h * (d + 1));
    let count = reference.faces(d + 1, vertices, all, &swept[..2 * count], &mut faces).unwrap();
    let mut text = Vec::with_capacity(1 << 16);
    writeln!(text, "key {} {n} {vertices} {}", d + 1, count / (d + 3)).unwrap();
    for level in 0..=h {
        for (i, p) in points.chunks_exact(n).enumerate() {
            text.push(b'v');
            number(level * v + i, &mut text);
            p.iter().for_each(|&x| decimal(x, &mut text));
            text.push(b'\n');
        }
        points = moved(data, n, &points);
    }
    for face in faces[..2 * count].chunks_exact(2 * (d + 3)) {
        text.push(if face[0] == 0 { b'+' } else { b'-' });
        let end = if named { 2 * (d + 3) } else { 2 * (d + 2) };
        face[2..end].chunks_exact(2).for_each(|b| number(u16::from_le_bytes([b[0], b[1]]) as usize, &mut text));
        text.push(b'\n');
    }
    text
}

/// A file of about 20 KB, of version 1 or 2: a strip of triangles among many points in a plane, slid out of it once.
pub fn sample(version: u8) -> Vec<u8> {
    let (d, n, v, s) = (2, 3, 770, 200);
    let mut data = [&b"WNG"[..], &[version, 0, d as u8, n as u8]].concat();
    for x in [v, s, 1] {
        data.extend((x as u16).to_le_bytes());
    }
    data.extend([1, 2, 0]);
    for x in [1.5f64, 0.0, 0.0] {
        data.extend(x.to_le_bytes());
    }
    for i in 0..v * n {
        let x = if i % n == 2 { -1.625 } else { (i * 7919 % 20011) as f64 / 3700.0 - 2.5 };
        data.extend(x.to_le_bytes());
    }
    for p in 0..s {
        data.push(if p % 2 == 0 { b'+' } else { b'-' });
        if version == 2 {
            data.extend((p as u16 * 5 % 1000).to_le_bytes());
        }
        (p..=p + d).for_each(|x| data.extend((x as u16).to_le_bytes()));
    }
    data
}
