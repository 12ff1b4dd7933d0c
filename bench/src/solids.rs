//! Solids to run the calls on. A cell is its sign word, its material and its vertices.

pub type Cell = Vec<u16>;

/// A small generator, so that every run has the same solids.
pub struct Random(pub u64);

impl Random {
    pub fn below(&mut self, n: usize) -> usize {
        self.0 ^= self.0 << 13;
        self.0 ^= self.0 >> 7;
        self.0 ^= self.0 << 17;
        ((self.0 >> 11) % n as u64) as usize
    }

    pub fn chance(&mut self, percent: usize) -> bool {
        self.below(100) < percent
    }

    pub fn pick<T: Copy>(&mut self, from: &[T]) -> T {
        from[self.below(from.len())]
    }

    pub fn shuffle<T>(&mut self, items: &mut [T]) {
        for i in (1..items.len()).rev() {
            items.swap(i, self.below(i + 1));
        }
    }
}

/// Sides of a grid of cubes, as even as can be, so that it has s cells or more.
fn sides(d: usize, s: usize) -> Vec<usize> {
    let per_cube: usize = (1..=d).product();
    let mut sides = vec![1; d];
    for i in (0..d).cycle() {
        if sides.iter().product::<usize>() * per_cube >= s {
            break;
        }
        sides[i] += 1;
    }
    sides
}

/// Cell number x of a grid of cubes, of a material by its number. A cube has d! cells: from its least corner along each
/// axis once, in some order.
/// The digits of x in factorial base are the order, and their sum its parity.
fn grid_cell(sides: &[usize], mut x: usize) -> Cell {
    let d = sides.len();
    let (mut order, mut odd, material) = (vec![], 0, x % 1000);
    for left in 1..=d {
        order.insert(x % left, left - 1);
        odd += left - 1 - x % left;
        x /= left;
    }
    let (mut at, mut steps, mut step) = (0, vec![], 1);
    for side in sides {
        at += x % side * step;
        x /= side;
        steps.push(step);
        step *= side + 1;
    }
    let mut cell = vec![(odd % 2) as u16, material as u16, at as u16];
    for axis in order {
        at += steps[axis];
        cell.push(at as u16);
    }
    cell
}

/// The first s cells of a grid of cubes of dimension d, 1 or above, and the count of its vertices.
pub fn grid(d: usize, s: usize) -> (Vec<Cell>, usize) {
    let sides = sides(d, s);
    ((0..s).map(|x| grid_cell(&sides, x)).collect(), sides.iter().map(|side| side + 1).product())
}

/// The same solid with vertices renamed, and reordered.
pub fn shuffled(cells: &[Cell], v: usize, random: &mut Random) -> Vec<Cell> {
    let mut names: Vec<u16> = (0..v as u16).collect();
    random.shuffle(&mut names);
    let mut renamed = cells.to_vec();
    renamed.iter_mut().for_each(|cell| cell[2..].iter_mut().for_each(|x| *x = names[*x as usize]));
    reordered(&renamed, random)
}

/// The same solid with cells in any order and their vertices in any order, signs following.
pub fn reordered(cells: &[Cell], random: &mut Random) -> Vec<Cell> {
    let mut result = cells.to_vec();
    for cell in result.iter_mut() {
        for i in (3..cell.len()).rev() {
            let j = 2 + random.below(i - 1);
            cell.swap(i, j);
            cell[0] ^= (i != j) as u16;
        }
    }
    random.shuffle(&mut result);
    result
}

pub fn bytes(cells: &[Cell]) -> Vec<u8> {
    cells.iter().flatten().flat_map(|word| word.to_le_bytes()).collect()
}
