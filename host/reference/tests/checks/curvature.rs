//! Areas and mean curvature.

use crate::tools::{
    extracted, faulty_meshes, random_grid, random_mesh, small_mesh, Grid, Mesh, Random,
};
use reference::curvature::{answer, curvature, root, triangle, Answer};

fn bits(list: &[f64]) -> Vec<u64> {
    list.iter().map(|number| number.to_bits()).collect()
}

/// The areas and vectors of a granted call; the rooms start with guard values.
fn curved(mesh: &Mesh) -> (Vec<f64>, Vec<f64>) {
    let mut areas = vec![-7.5; mesh.marks.len()];
    let mut vectors = vec![f64::NAN; 3 * mesh.marks.len()];
    let number = curvature(
        &mesh.points,
        &mesh.triangles,
        &mesh.marks,
        &mut areas,
        &mut vectors,
    );
    assert_eq!(number, 0);
    (areas, vectors)
}

/// A call with rooms of these lengths refuses with `number` and leaves both.
fn assert_refused(mesh: &Mesh, area_count: usize, vector_count: usize, number: u32) {
    let before_areas: Vec<f64> = (0..area_count).map(|i| -1.5 - i as f64).collect();
    let before_vectors: Vec<f64> = (0..vector_count).map(|i| 0.25 + i as f64).collect();
    let (mut areas, mut vectors) = (before_areas.clone(), before_vectors.clone());
    let given = curvature(
        &mesh.points,
        &mesh.triangles,
        &mesh.marks,
        &mut areas,
        &mut vectors,
    );
    assert_eq!(given, number);
    assert_eq!((areas, vectors), (before_areas, before_vectors));
}

#[test]
fn triangle_figure() {
    let parts = triangle([[0, 0, 0], [256, 0, 0], [0, 256, 0]]).unwrap();
    assert_eq!(parts.s, 13);
    assert_eq!(parts.doubled, 65_536.0);
    assert_eq!(parts.shares, [16_384.0, 8_192.0, 8_192.0]);
    assert_eq!(parts.cot, [0.0, 1.0, 1.0]);
    assert_eq!(root(1 << 32), (13, 1 << 29));
}

#[test]
fn roots() {
    assert_eq!(root(1), (29, 1 << 29));
    assert_eq!(root(2), (29, 759_250_124));
    assert_eq!(root(3), (29, 929_887_696));
    assert_eq!(root((1 << 58) - 1), (1, (1 << 30) - 1));
    assert_eq!(root(1 << 58), (0, 1 << 29));
    assert_eq!(root((1 << 60) - 1), (0, (1 << 30) - 1));
    let mut random = Random::new(41);
    for _ in 0..20_000 {
        let high = u64::from(random.below(1 << 30));
        let low = u64::from(random.below(1 << 30));
        let n = (((high << 30) | low) >> random.below(60)).max(1);
        let (s, r) = root(n);
        let scaled = u128::from(n) << (2 * s);
        assert!((1 << 58..1 << 60).contains(&scaled));
        let r = u128::from(r);
        assert!(r * r <= scaled && scaled < (r + 1) * (r + 1));
    }
}

#[test]
#[should_panic(expected = "no s fits")]
fn nothing_fits_zero() {
    root(0);
}

/// The bits were found with exact fractions, each rounded once.
#[test]
fn bits_of_small_meshes() {
    let (areas, vectors) = curved(&small_mesh());
    assert_eq!(
        bits(&areas),
        [
            0x4112_2267_f7a1_d3d0,
            0x410e_6a08_8e6d_cfe8,
            0x410e_b90f_7425_2d0e,
            0x4110_ca7d_70cf_42c0,
            0
        ]
    );
    assert_eq!(
        bits(&vectors),
        [
            0xbf55_345c_0ca2_896c,
            0xbf53_b295_ab1e_181e,
            0xbf4e_685f_44b1_d52f,
            0,
            0,
            0,
            0xbf33_d20e_f4a5_bb56,
            0x3f61_1fee_4e48_89b8,
            0xbf42_f003_2ea5_c9ae,
            0xbf12_7292_96ca_d46d,
            0xbf2c_61b1_dbca_266e,
            0x3f61_3440_c145_644d,
            0,
            0,
            0
        ]
    );
}

/// The bits were found with exact fractions, each rounded once. Four of the five
/// triangles have a wide angle, and two of them lie back to back.
#[test]
fn bits_of_wide_triangles() {
    let mesh = Mesh {
        points: vec![
            0, 0, 0, 1000, 3, 7, 500, 41, 11, 16_128, 9001, 777, 3, 16_128, 5,
        ],
        triangles: vec![0, 1, 2, 2, 1, 3, 0, 2, 4, 3, 2, 1, 4, 0, 3],
        marks: vec![0; 5],
    };
    let (areas, vectors) = curved(&mesh);
    assert_eq!(
        bits(&areas),
        [
            0x4185_2bee_056e_bb43,
            0x4143_77d4_6adf_4000,
            0x4149_2d07_96be_8000,
            0x4183_f255_489d_68ca,
            0x4186_8892_fb5c_1c78
        ]
    );
    assert_eq!(
        bits(&vectors),
        [
            0xbf21_26be_0fb2_8b3d,
            0xbf19_4973_db11_a89e,
            0xbed2_be97_3578_b8ca,
            0x3f5c_f013_d5d7_10b6,
            0xbf69_61e7_587b_e4ac,
            0xbf32_4d99_dbf2_2ac9,
            0xbf23_486c_1382_8230,
            0x3f63_4ffd_1d25_f0b7,
            0x3f2f_e2ee_8e52_6e6d,
            0x3f19_5bab_9140_873f,
            0x3ed8_e3d4_1c0a_d7f7,
            0x3ed5_93a6_31df_48a8,
            0xbf09_0d1e_2cfe_d9f8,
            0x3f17_1612_ebac_6542,
            0xbec2_f91b_9806_fea0
        ]
    );
}

/// A second way to a room pair: point by point instead of triangle by triangle,
/// and from the three dot products alone: L_i = d_j + d_k and
/// N = d_0·d_1 + d_1·d_2 + d_2·d_0.
fn second_way(mesh: &Mesh) -> (Vec<f64>, Vec<f64>) {
    let at = |p: u32, axis: usize| i128::from(mesh.points[3 * p as usize + axis]);
    let from = |i: u32, j: u32, k: u32| -> i128 {
        (0..3)
            .map(|axis| (at(j, axis) - at(i, axis)) * (at(k, axis) - at(i, axis)))
            .sum()
    };
    let (mut areas, mut vectors) = (Vec::new(), Vec::new());
    for (i, &mark) in (0_u32..).zip(&mesh.marks) {
        let (mut area, mut vector) = (0.0_f64, [0.0_f64; 3]);
        for t in mesh.triangles.chunks(3) {
            let Some(corner) = t.iter().position(|&p| p == i) else {
                continue;
            };
            let (j, k) = (t[(corner + 1) % 3], t[(corner + 2) % 3]);
            let (d_i, d_j, d_k) = (from(i, j, k), from(j, k, i), from(k, i, j));
            let n = d_i * d_j + d_j * d_k + d_k * d_i;
            if n == 0 {
                continue;
            }
            let s = (0..30).find(|s| n << (2 * s) >= 1_i128 << 58).unwrap();
            let r = (n << (2 * s)).isqrt();
            let doubled = r as f64 * 0.5_f64.powi(s);
            let cot_j = d_j as f64 / doubled;
            let cot_k = d_k as f64 / doubled;
            area += if d_i < 0 {
                doubled * 0.25
            } else if d_j < 0 || d_k < 0 {
                doubled * 0.125
            } else {
                let of_j = (d_k + d_i) as f64 * cot_j;
                let of_k = (d_i + d_j) as f64 * cot_k;
                (of_j + of_k) * 0.125
            };
            for (axis, running) in vector.iter_mut().enumerate() {
                *running += cot_k * (at(i, axis) as f64 - at(j, axis) as f64);
                *running += cot_j * (at(i, axis) as f64 - at(k, axis) as f64);
            }
        }
        areas.push(area);
        if mark == 1 || area == 0.0 {
            vector = [0.0; 3];
        } else {
            vector = vector.map(|running| running / (area * 4.0));
        }
        vectors.extend(vector);
    }
    (areas, vectors)
}

fn assert_ways_agree(mesh: &Mesh) {
    let (areas, vectors) = curved(mesh);
    let (other_areas, other_vectors) = second_way(mesh);
    assert_eq!(bits(&areas), bits(&other_areas));
    assert_eq!(bits(&vectors), bits(&other_vectors));
}

#[test]
fn random_meshes_agree_with_the_second_way() {
    let mut random = Random::new(42);
    for _ in 0..200 {
        let (v, t) = (3 + random.below(15), random.below(40));
        let most = [1, 5, 256, 16_128][random.below(4) as usize];
        assert_ways_agree(&random_mesh(&mut random, v, t, most));
    }
    for _ in 0..30 {
        assert_ways_agree(&extracted(&random_grid(&mut random)).0);
    }
}

#[test]
fn the_largest_triangle_is_taken() {
    let m = 16_128;
    let parts = triangle([[m, 0, 0], [0, m, 0], [0, 0, m]]).unwrap();
    assert_eq!(parts.s, 1);
    let wanted = 3_f64.sqrt() * f64::from(m) * f64::from(m);
    assert!((parts.doubled - wanted).abs() < 1.0);
}

#[test]
fn triangles_without_area_give_nothing() {
    assert_eq!(triangle([[1, 2, 3], [1, 2, 3], [4, 5, 6]]), None);
    assert_eq!(triangle([[0, 0, 0], [1, 2, 3], [3, 6, 9]]), None);
    let thin = triangle([[0, 0, 0], [16_128, 0, 0], [8_000, 1, 0]]);
    assert_eq!(thin.map(|parts| parts.doubled), Some(16_128.0));
}

/// The corner with the wide angle gets a quarter of D, the others an eighth.
#[test]
fn wide_angles() {
    let corners = [[0, 0, 0], [100, 0, 0], [50, 10, 0]];
    for turn in 0..3 {
        let turned = [0, 1, 2].map(|i| corners[(i + turn) % 3]);
        let parts = triangle(turned).unwrap();
        for i in 0..3 {
            let wide = (i + turn) % 3 == 2;
            assert_eq!(parts.cot[i] < 0.0, wide);
            assert_eq!(parts.shares[i], if wide { 250.0 } else { 125.0 });
        }
    }
}

/// The areas of a mesh add up to half the sum of all D.
#[test]
fn areas_add_up() {
    let mut random = Random::new(43);
    let mesh = random_mesh(&mut random, 20, 40, 16_128);
    let half: f64 = mesh
        .triangles
        .chunks(3)
        .map(|t| {
            let corner = |p: u32| [0, 1, 2].map(|axis| mesh.points[3 * p as usize + axis]);
            let corners = [corner(t[0]), corner(t[1]), corner(t[2])];
            triangle(corners).map_or(0.0, |parts| parts.doubled / 2.0)
        })
        .sum();
    let sum: f64 = curved(&mesh).0.iter().sum();
    assert!((sum / half - 1.0).abs() < 1e-6);
}

/// The points of an octahedron are bent and their vectors point outwards.
#[test]
fn centre_figure() {
    let (mut mesh, _) = extracted(&Grid::centre());
    let (areas, vectors) = curved(&mesh);
    for point in 0..6 {
        let Ok(Answer::Bent(area, vector)) = answer(&mesh.marks, &areas, &vectors, point) else {
            panic!("point {point} is not bent");
        };
        assert!(area > 0.0);
        let out: f64 = (0..3)
            .map(|axis| vector[axis] * (f64::from(mesh.points[3 * point as usize + axis]) - 256.0))
            .sum();
        assert!(out > 0.0);
    }
    // "One round of weight 256 puts all six points at (256,256,256), all flat."
    mesh.points.fill(256);
    let (areas, vectors) = curved(&mesh);
    assert_eq!(bits(&areas), [0; 6]);
    assert_eq!(bits(&vectors), [0; 18]);
    for point in 0..6 {
        let given = answer(&mesh.marks, &areas, &vectors, point);
        assert_eq!(given, Ok(Answer::Flat));
    }
}

/// A ball of radius 10 voxels: the vectors, weighed by their areas, have a mean
/// size near one over the radius.
#[test]
fn a_ball_bends_by_one_over_its_radius() {
    let radius = 10.0;
    let mut grid = Grid::filled([26, 26, 26], 30_000, 0);
    for z in 0..26 {
        for y in 0..26 {
            for x in 0..26 {
                let way = [x, y, z].map(|c| f64::from(c) - 12.5);
                let far = (way[0] * way[0] + way[1] * way[1] + way[2] * way[2]).sqrt();
                grid.set([x, y, z], (30_000.0 + 1_000.0 * (radius - far)) as u16);
            }
        }
    }
    let (mesh, _) = extracted(&grid);
    let (areas, vectors) = curved(&mesh);
    let (mut bent, mut whole) = (0.0, 0.0);
    for (area, vector) in areas.iter().zip(vectors.chunks(3)) {
        let size = (vector[0] * vector[0] + vector[1] * vector[1] + vector[2] * vector[2]).sqrt();
        bent += area * size;
        whole += area;
    }
    let mean = bent / whole * 256.0;
    assert!((mean * radius - 1.0).abs() < 0.05, "mean {mean}");
}

#[test]
fn faulty_meshes_are_refused_before_anything_else() {
    for (number, mesh) in faulty_meshes() {
        assert_refused(&mesh, 5, 15, number);
        assert_refused(&mesh, 4, 16, number);
    }
}

#[test]
fn rooms_have_exact_lengths() {
    for (areas, vectors) in [(4, 15), (6, 15), (5, 14), (5, 16), (0, 0), (15, 5)] {
        assert_refused(&small_mesh(), areas, vectors, 3);
    }
}

#[test]
fn an_empty_mesh_is_granted() {
    let mesh = Mesh {
        points: vec![],
        triangles: vec![],
        marks: vec![],
    };
    assert_eq!(curved(&mesh), (vec![], vec![]));
    assert_refused(&mesh, 1, 0, 3);
}

#[test]
fn the_three_answers_are_read_back() {
    let marks = [1, 0, 0, 0, 1, 0, 0];
    let areas = [2.5, 0.0, -0.0, 4.0, 0.0, f64::NAN, -1.0];
    let vectors: Vec<f64> = (0..21).map(f64::from).collect();
    let read = |point| answer(&marks, &areas, &vectors, point);
    assert_eq!(read(0), Ok(Answer::Open(2.5)));
    assert_eq!(read(1), Ok(Answer::Flat));
    assert_eq!(read(2), Ok(Answer::Flat));
    assert_eq!(read(3), Ok(Answer::Bent(4.0, [9.0, 10.0, 11.0])));
    assert_eq!(read(4), Ok(Answer::Open(0.0)));
    assert!(matches!(read(5), Ok(Answer::Bent(area, [15.0, 16.0, 17.0])) if area.is_nan()));
    assert_eq!(read(6), Ok(Answer::Bent(-1.0, [18.0, 19.0, 20.0])));
}

#[test]
fn reading_back_refuses_with_6_then_14_then_9() {
    let marks = [0, 2, 1];
    let numbers = [1.0; 10];
    let read = |areas: usize, vectors: usize, point| {
        answer(&marks, &numbers[..areas], &numbers[..vectors], point)
    };
    for (areas, vectors) in [(2, 9), (4, 9), (3, 8), (3, 10), (0, 0)] {
        for point in [0, 1, 3] {
            assert_eq!(read(areas, vectors, point), Err(6));
        }
    }
    assert_eq!(read(3, 9, 3), Err(14));
    assert_eq!(read(3, 9, u32::MAX), Err(14));
    assert_eq!(read(3, 9, 1), Err(9));
    assert_eq!(read(3, 9, 0), Ok(Answer::Bent(1.0, [1.0; 3])));
    assert_eq!(read(3, 9, 2), Ok(Answer::Open(1.0)));
    assert_eq!(answer(&[], &[], &[], 0), Err(14));
}
