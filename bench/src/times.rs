//! Times of wing, sweep and faces on grids of cubes, plain and shuffled.

use crate::both::{Both, Lent};
use crate::calls::{Call, Job, CALLS};
use crate::solids::{bytes, grid, shuffled, Random};

/// Calls, steps and the greatest dimension.
const SERIES: [(Call, usize, usize); 4] = [(Call::Wing, 1, 7), (Call::Sweep, 1, 6), (Call::Sweep, 8, 6), (Call::Faces, 1, 7)];

/// A call on a solid of about so many cells, for a sweep of its result, and the least times so far.
struct Row {
    job: Job,
    mixed: bool,
    size: usize,
    input: Vec<u8>,
    library: f64,
    reference: f64,
}

impl Row {
    fn new(both: &mut Both, call: Call, d: usize, h: usize, mixed: bool, size: usize) -> Row {
        // A row of edges has a vertex more than cells, at each level.
        let s = if call == Call::Sweep { (size.min(4095) / (h * (d + 1))).max(1) } else { size.min(if d == 1 { 4095 } else { 4096 }) };
        let (mut cells, v) = grid(d, s);
        if mixed {
            cells = shuffled(&cells, v, &mut Random(88172645463325252));
        }
        let mut input = bytes(&cells);
        if call != Call::Wing {
            input = both.table(d, v, s, &input).expect("a grid is accepted");
        }
        Row { job: Job::new(call, d, v, s, h), mixed, size, input, library: f64::INFINITY, reference: f64::INFINITY }
    }

    fn measure(&mut self, both: &mut Both, rounds: usize) {
        let (library, reference) = both.least(&self.job, &self.input, rounds);
        self.library = self.library.min(library);
        self.reference = self.reference.min(reference);
    }

    fn ratio(&self) -> f64 {
        self.library / self.reference
    }
}

/// For each call, dimension and order a row of each size.
fn plan(both: &mut Both, sizes: &[usize]) -> Vec<Row> {
    let mut rows = vec![];
    for (call, h, most) in SERIES {
        for (d, mixed) in (1..=most).flat_map(|d| [(d, false), (d, true)]) {
            rows.extend(sizes.iter().map(|&size| Row::new(both, call, d, h, mixed, size)));
        }
    }
    rows
}

fn print_rows(rows: &[Row], sizes: &[usize]) {
    println!("{:21}{}", "", sizes.iter().map(|size| format!("{:>29}", format!("about {size} cells"))).collect::<String>());
    println!("call   d  h  order   {}", "    library reference   ratio".repeat(sizes.len()));
    for of_sizes in rows.chunks(sizes.len()) {
        let Job { call, d, h, .. } = of_sizes[0].job;
        let order = if of_sizes[0].mixed { "shuffled" } else { "plain" };
        let times: String = of_sizes.iter().map(|row| format!("{:11.1}{:10.1}{:8.2}", row.library, row.reference, row.ratio())).collect();
        println!("{:5} {d:2} {h:2}  {order:8}{times}", call.name());
    }
}

fn print_ranges(rows: &[Row], sizes: &[usize]) {
    println!("\nlibrary / reference, least to greatest");
    for &(call, h, _) in &SERIES {
        for &size in sizes {
            let ratios = rows.iter().filter(|row| row.job.call == call && row.job.h == h as u32 && row.size == size).map(Row::ratio);
            let (least, greatest) = ratios.fold((f64::INFINITY, 0f64), |(a, b), ratio| (a.min(ratio), b.max(ratio)));
            println!("{:5} h {h} about {size:4} cells   {least:5.2} to {greatest:5.2}", call.name());
        }
    }
}

/// What a call costs on one triangle, most of it the same for all solids.
fn print_single(both: &mut Both, rounds: usize) {
    println!("\nmicroseconds on one triangle");
    for call in CALLS {
        let row = Row::new(both, call, 2, 1, false, 1);
        let (library, reference) = both.least(&row.job, &row.input, rounds);
        println!("{:5} {library:6.2} {reference:6.2}", call.name());
    }
}

/// Compares both sides on every row, and times them: ten times over all rows, so that a slow moment meets many.
pub fn run(both: &mut Both, sizes: &[usize], rounds: usize) {
    let mut rows = plan(both, sizes);
    for row in &rows {
        let answer = both.compare(&row.job, &row.input, [Lent::enough(), Lent::enough()]);
        both.count(answer > 0, || format!("{:?} is refused: {answer}", row.job));
    }
    for _ in 0..10 {
        for row in rows.iter_mut() {
            row.measure(both, rounds.div_ceil(10));
        }
    }
    println!("microseconds, least of {rounds} rounds in turns");
    print_rows(&rows, sizes);
    print_ranges(&rows, sizes);
    print_single(both, rounds);
}
