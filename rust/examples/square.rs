//! A square of two triangles is winged and swept in one step, and the boundary of the sweep is printed, a face a line.

use winged::{faces, sweep, wing, Refusal};

fn main() -> Result<(), Refusal> {
    // +(0 1 2) and -(1 2 3) on 4 vertices: a sign word, a material and the vertices of each cell
    let table = wing(2, 4, 2, &[0, 0, 0, 1, 2, 1, 0, 1, 2, 3])?.table;
    // six tetrahedra on 8 vertices
    let swept = sweep(2, 4, 2, 1, &table)?;
    // a sign word, three vertices and a material
    for face in faces(3, 8, 6, &swept)?.chunks(5) {
        let sign = if face[0] == 0 { '+' } else { '-' };
        println!("{sign} {} {} {}", face[1], face[2], face[3]);
    }
    Ok(())
}
