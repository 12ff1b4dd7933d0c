//! The marked keys, wings in uploaded order, materials, steps that leave the plane and the refusals through the safe functions.

use winged::{faces, key, list as listed, move_points, read, sweep, wing, Refusal, Step, EMPTY};

/// Words from a sign and vertices for each cell, of material 0.
fn list(cells: &[(char, &[u16])]) -> Vec<u16> {
    cells.iter().flat_map(|&(sign, vertices)| [&[(sign == '-') as u16, 0], vertices].concat()).collect()
}

/// Words of faces of material 0.
fn face_list(faces: &[(char, &[u16])]) -> Vec<u16> {
    faces.iter().flat_map(|&(sign, vertices)| [&[(sign == '-') as u16], vertices, &[0]].concat()).collect()
}

const E: u16 = EMPTY;

#[test]
fn k2_two_triangles() -> Result<(), Refusal> {
    let table = wing(2, 4, 2, &list(&[('+', &[0, 1, 2]), ('-', &[1, 2, 3])]))?.table;
    assert_eq!(table, [0, 0, 0, 1, 2, 1, E, E, 1, 0, 1, 2, 3, E, E, 0]);
    let swept = sweep(2, 4, 2, 1, &table)?;
    assert_eq!(swept[..20], [0, 0, 0, 1, 2, 4, 1, E, E, E, 0, 0, 1, 2, 4, 5, 2, E, 3, 0]);
    let boundary: [(char, &[u16]); 12] = [
        ('-', &[0, 2, 4]), ('+', &[0, 1, 4]), ('-', &[0, 1, 2]), ('-', &[1, 4, 5]), ('+', &[4, 5, 6]), ('+', &[2, 4, 6]),
        ('+', &[1, 3, 5]), ('+', &[1, 2, 3]), ('-', &[2, 3, 6]), ('-', &[5, 6, 7]), ('+', &[3, 6, 7]), ('-', &[3, 5, 7]),
    ];
    assert_eq!(faces(3, 8, 6, &swept)?, face_list(&boundary));
    Ok(())
}

#[test]
fn two_materials() -> Result<(), Refusal> {
    // +(0 1 2) of material 7 and -(1 2 3) of material 999: the side between them is shared
    let table = wing(2, 4, 2, &[0, 7, 0, 1, 2, 1, 999, 1, 2, 3])?.table;
    assert_eq!(table, [0, 7, 0, 1, 2, 1, E, E, 1, 999, 1, 2, 3, E, E, 0]);
    assert_eq!(faces(2, 4, 2, &table)?, [1, 0, 2, 7, 0, 0, 1, 7, 1, 2, 3, 999, 0, 1, 3, 999]);
    let swept = sweep(2, 4, 2, 2, &table)?;
    let materials: Vec<u16> = swept.chunks(10).map(|record| record[1]).collect();
    assert_eq!(materials, [7, 7, 7, 999, 999, 999, 7, 7, 7, 999, 999, 999]);
    let first = "key 2 1 4 4\nv 0 0.000\nv 1 0.000\nv 2 0.000\nv 3 0.000\n";
    assert_eq!(listed(1, 2, 1, 4, 2, &table, &[0.0; 4])?, format!("{first}- 0 2\n+ 0 1\n- 2 3\n+ 1 3\n"));
    assert_eq!(listed(2, 2, 1, 4, 2, &table, &[0.0; 4])?, format!("{first}- 0 2 7\n+ 0 1 7\n- 2 3 999\n+ 1 3 999\n"));
    assert_eq!([0, 3].map(|version| listed(version, 2, 1, 4, 2, &table, &[0.0; 4])), [const { Err(Refusal::OutsideLimits) }; 2]);
    Ok(())
}

#[test]
fn bad_materials() {
    for (material, good) in [(0, true), (999, true), (1000, false), (65535, false)] {
        let table = [0, material, 0, 1, 2, E, E, E];
        assert_eq!(wing(2, 3, 1, &table[..5]).map(|w| w.table), if good { Ok(table.to_vec()) } else { Err(Refusal::BadMaterial) });
        let unsound = |refusal: Option<Refusal>| assert_eq!(refusal, if good { None } else { Some(Refusal::Unsound) });
        unsound(faces(2, 3, 1, &table).err());
        unsound(sweep(2, 3, 1, 1, &table).err());
        unsound(listed(1, 2, 1, 3, 1, &table, &[0.0; 3]).err());
        unsound(listed(2, 2, 1, 3, 1, &table, &[0.0; 3]).err());
    }
    // between 8 and 9
    assert_eq!(wing(2, 3, 2, &[0, 1000, 0, 1, 2, 0, 0, 0, 1, 1]), Err(Refusal::VertexTwice));
    assert_eq!(wing(2, 3, 2, &[0, 1000, 0, 1, 2, 0, 0, 0, 1, 2]), Err(Refusal::BadMaterial));
    assert_eq!(wing(2, 3, 2, &[0, 1, 0, 1, 2, 0, 2, 0, 1, 2]), Err(Refusal::CellTwice));
    assert_eq!(Refusal::BadMaterial.to_string(), "refused 18: a material is above 999");
}

#[test]
fn out_of_the_own_plane() {
    let square = [0.0, 0.0, 0.0, 1.0, 0.0, 0.0, 0.0, 1.0, 0.0, 1.0, 1.0, -0.0];
    let moved = |step| move_points(3, 4, 2, step, &square).map(|levels| levels.len());
    let slide = |axis, amount| Step::Slide { axis, amount };
    let slant = |other| Step::Slant { axis: 0, amount: 1.0, other, other_amount: 0.5 };
    let turn = |rise| Step::Turn { cosine: 0.6, sine: 0.8, rise };
    for (step, good) in [
        (slide(0, 1.0), false), (slide(2, 1.0), true), (slide(2, -1.0), true), (slide(2, -0.0), false), (slant(1), false), (slant(2), true),
        (turn(0.0), false), (turn(0.25), true),
    ] {
        assert_eq!(moved(step), if good { Ok(36) } else { Err(Refusal::StaysInPlane) });
    }
    // 1 - 2^-53 becomes 1, and then stays 1
    let last = 1.0 - f64::EPSILON / 2.0;
    assert_eq!(move_points(1, 1, 1, slide(0, f64::EPSILON / 2.0), &[last]), Ok(vec![last, 1.0]));
    assert_eq!(move_points(1, 1, 2, slide(0, f64::EPSILON / 2.0), &[last]), Err(Refusal::StaysInPlane));
    // after 13
    assert_eq!(move_points(1, 2, 1, slide(0, 1.0), &[0.0, 1048575.0]), Err(Refusal::MovedOutOfRange));
    assert_eq!(Refusal::StaysInPlane.to_string(), "refused 17: the step does not leave the plane of the points");
}

#[test]
fn k3_a_point_in_three_steps() -> Result<(), Refusal> {
    let swept = sweep(0, 1, 1, 3, &wing(0, 1, 1, &[0, 9, 0])?.table)?;
    assert_eq!(swept, [0, 9, 0, 1, 1, E, 0, 9, 1, 2, 2, 0, 0, 9, 2, 3, E, 1]);
    assert_eq!(faces(1, 4, 3, &swept)?, [1, 0, 9, 0, 3, 9]);
    Ok(())
}

#[test]
fn k4_ascending_order_turns_the_sign() -> Result<(), Refusal> {
    assert_eq!(wing(2, 3, 1, &list(&[('+', &[2, 1, 0])]))?.table[..5], [1, 0, 0, 1, 2]);
    Ok(())
}

#[test]
fn wings_in_uploaded_order() -> Result<(), Refusal> {
    let orders: [(char, &[u16], &[u16]); 6] = [
        ('+', &[0, 1, 2], &[2, 3, 1]), ('-', &[0, 2, 1], &[2, 1, 3]), ('-', &[1, 0, 2], &[3, 2, 1]),
        ('+', &[1, 2, 0], &[3, 1, 2]), ('+', &[2, 0, 1], &[1, 2, 3]), ('-', &[2, 1, 0], &[1, 3, 2]),
    ];
    for (sign, vertices, wings) in orders {
        let cells = list(&[(sign, vertices), ('-', &[0, 1, 3]), ('-', &[1, 2, 4]), ('+', &[0, 2, 5])]);
        let winged = wing(2, 6, 4, &cells)?;
        assert_eq!(winged.table[..8], [0, 0, 0, 1, 2, 2, 3, 1]);
        assert_eq!(winged.uploaded, [wings, &[E, E, 0], &[E, E, 0], &[E, E, 0]].concat());
    }
    assert_eq!(wing(0, 2, 2, &list(&[('+', &[1]), ('-', &[0])]))?.uploaded, [E, E]);
    Ok(())
}

#[test]
fn a_row_of_cells_written_backwards() -> Result<(), Refusal> {
    // of dimension 7, so that the reordering is even
    let cells: Vec<u16> = (0..4089).flat_map(|p| [0, p % 1000].into_iter().chain((p..p + 8).rev())).collect();
    let winged = wing(7, 4096, 4089, &cells)?;
    assert_eq!((winged.table.len(), winged.uploaded.len()), (18 * 4089, 8 * 4089));
    for ((p, record), wings) in winged.table.chunks(18).enumerate().zip(winged.uploaded.chunks(8)) {
        assert_eq!(record[1] as usize, p % 1000);
        assert!(record[10..].iter().rev().eq(wings));
    }
    Ok(())
}

#[test]
fn refusals() {
    let wing2 = |v, cells: &[(char, &[u16])]| wing(2, v, cells.len() as u32, &list(cells)).unwrap_err();
    assert_eq!(wing(8, 9, 1, &[0; 11]), Err(Refusal::OutsideLimits));
    assert_eq!(wing(u32::MAX, u32::MAX, u32::MAX, &[]), Err(Refusal::OutsideLimits));
    assert_eq!(wing(2, 3, 1, &[0; 4]), Err(Refusal::WrongLength));
    assert_eq!(wing(2, 3, 1, &[2, 0, 0, 1, 2]), Err(Refusal::BadSign));
    assert_eq!(wing2(3, &[('+', &[0, 1, 3])]), Refusal::BadVertex);
    assert_eq!(wing2(3, &[('+', &[0, 1, 1])]), Refusal::VertexTwice);
    assert_eq!(wing2(3, &[('+', &[0, 1, 2]), ('-', &[2, 1, 0])]), Refusal::CellTwice);
    assert_eq!(wing2(5, &[('+', &[0, 1, 2]), ('-', &[0, 1, 3]), ('+', &[0, 1, 4])]), Refusal::CrowdedFace);
    assert_eq!(wing2(4, &[('+', &[0, 1, 2]), ('+', &[1, 2, 3])]), Refusal::EqualSigns);
    assert_eq!(sweep(2, 3, 1000, 2, &[0; 8000]), Err(Refusal::SweptTooLarge));
    assert_eq!(sweep(6, 8, 1, 65, &[0; 16]), Err(Refusal::OutsideLimits));
    assert_eq!(faces(2, 3, 1, &[0, 0, 0, 1, 2, 0, E, E]), Err(Refusal::Unsound));
    assert_eq!(Refusal::CrowdedFace.to_string(), "refused 10: a face is in three or more cells");
}

#[test]
fn no_cells() -> Result<(), Refusal> {
    for d in 0..=6 {
        for v in [0, 1, 5] {
            let winged = wing(d, v, 0, &[])?;
            assert_eq!(winged.uploaded, []);
            let swept = sweep(d, v, 0, 2, &winged.table)?;
            assert_eq!(faces(d + 1, 3 * v, 0, &swept)?, []);
            let levels = move_points(1, v, 2, Step::Slide { axis: 0, amount: 1.0 }, &vec![0.5; v as usize])?;
            let text = listed(1, d + 1, 1, 3 * v, 0, &swept, &levels)?;
            assert!(text.starts_with(&format!("key {} 1 {} 0\n", d + 1, 3 * v)) && text.lines().count() == 1 + 3 * v as usize);
            assert_eq!(listed(2, d + 1, 1, 3 * v, 0, &swept, &levels)?, text);
        }
        assert_eq!(wing(d, 0, 1, &vec![0; d as usize + 3]), Err(Refusal::OutsideLimits));
    }
    Ok(())
}

/// A sample's bytes and its key.
fn sample(name: &str) -> (Vec<u8>, String) {
    let folder = concat!(env!("CARGO_MANIFEST_DIR"), "/../examples/");
    let file = |end| std::fs::read(format!("{folder}{name}.{end}")).unwrap();
    (file("wng"), String::from_utf8(file("key")).unwrap())
}

#[test]
fn a_file_to_its_key() -> Result<(), Refusal> {
    let plain = ["series/3-cube", "series/1-segment", "empty/vertices", "empty/dimension-6"].map(|name| (name, 1));
    let composite = ["materials/square", "materials/cube", "materials/plain", "materials/nothing"].map(|name| (name, 2));
    for (name, version) in plain.into_iter().chain(composite) {
        let (bytes, text) = sample(name);
        let f = read(&bytes)?;
        assert_eq!(f.version, version);
        let swept = sweep(f.d, f.v, f.s, f.h, &wing(f.d, f.v, f.s, &f.cells)?.table)?;
        let levels = move_points(f.n, f.v, f.h, f.step, &f.points)?;
        assert_eq!(listed(f.version, f.d + 1, f.n, (f.h + 1) * f.v, f.h * f.s * (f.d + 1), &swept, &levels)?, text);
        assert_eq!(key(&bytes), text);
    }
    assert_eq!(key(b"WNG"), "refused 1\n");
    for name in ["refused/17", "refused/17-rounding", "steps/slant-second", "refused/18", "refused/15-longer-records"] {
        let (bytes, text) = sample(name);
        assert_eq!(key(&bytes), text);
    }
    assert_eq!(read(&sample("materials/square").0)?.cells, [0, 7, 0, 1, 2, 1, 42, 1, 2, 3]);
    assert_eq!(read(&sample("series/2-square").0)?.cells, [0, 0, 0, 1, 2, 1, 0, 1, 2, 3]);
    assert_eq!(read(&sample("refused/18").0), Err(Refusal::BadMaterial));
    Ok(())
}

#[test]
fn the_largest_file() -> Result<(), Refusal> {
    // 4,096 cells of dimension 6 in version 2, on 4,096 vertices of 8 axes; some cells are the same, which read takes
    let mut bytes = b"WNG\x02\0\x06\x08\x00\x10\x00\x10\x01\0\x01\0\0".to_vec();
    bytes.resize(40 + 8 * 8 * 4096, 0);
    let words = |p: u16| [p % 1000].into_iter().chain(p % 4090..p % 4090 + 7);
    for p in 0..4096 {
        bytes.push(b'-');
        words(p).for_each(|word| bytes.extend(word.to_le_bytes()));
    }
    let f = read(&bytes)?;
    assert_eq!((bytes.len(), f.version, f.cells.len(), f.points.len()), (331816, 2, 4096 * 9, 4096 * 8));
    assert!(f.cells.chunks(9).zip(0..4096).all(|(cell, p)| cell[0] == 1 && cell[1..].iter().copied().eq(words(p))));
    Ok(())
}

#[test]
fn refusals_of_read_move_and_list() {
    let slide = |axis, amount| Step::Slide { axis, amount };
    assert_eq!(read(b"WNG"), Err(Refusal::NotOurs));
    assert_eq!(read(&[b"WNG\x01\0".as_slice(), &[0; 35]].concat()), Err(Refusal::OutsideLimits));
    assert_eq!(read(&[b"WNG\x02\0".as_slice(), &[0; 35]].concat()), Err(Refusal::OutsideLimits));
    assert_eq!(read(&[b"WNG\x03\0".as_slice(), &[0; 35]].concat()), Err(Refusal::NotOurs));
    assert_eq!(move_points(1, 1, 1, slide(0, f64::NAN), &[0.0]), Err(Refusal::FloatRange));
    assert_eq!(move_points(1, 1, 1, slide(1, 1.0), &[0.0]), Err(Refusal::StepUnfit));
    assert_eq!(move_points(1, 2049, 1, slide(0, 1.0), &[0.0; 2049]), Err(Refusal::SweptTooLarge));
    assert_eq!(move_points(1, 1, 1, slide(0, 1.0), &[1048575.0]), Err(Refusal::MovedOutOfRange));
    assert_eq!(move_points(2, 1, 1, Step::Slant { axis: 1, amount: 0.5, other: 0, other_amount: -1.0 }, &[1.0, 2.0]), Ok(vec![1.0, 2.0, 0.0, 2.5]));
    assert_eq!(listed(1, 0, 1, 1, 1, &[0, 0, 0, E], &[f64::INFINITY]), Err(Refusal::FloatRange));
    assert_eq!(listed(2, 0, 1, 1, 1, &[0, 0, 0, 0], &[0.0]), Err(Refusal::Unsound));
}
