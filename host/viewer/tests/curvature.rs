//! Areas, mean curvature and one answer read back, against the reference: numbers and the bits of every place of both rooms.

mod tools;

use reference::curvature::Answer;
use tools::{extracted, first_of, made_up_triangles, smoothed, spoiled, Caller, Seed};

fn bits(numbers: &[f64]) -> Vec<u64> {
    numbers.iter().map(|number| number.to_bits()).collect()
}

fn held(length: usize) -> Vec<f64> {
    (0..length).map(|i| -1.5 - i as f64).collect()
}

/// One call on both sides with rooms of these lengths; answers the number and both rooms.
fn same_in(mesh: &Caller, areas: usize, vectors: usize) -> (u32, Vec<f64>, Vec<f64>) {
    let (mut proved, mut proved_vectors) = (held(areas), held(vectors));
    let (mut plain, mut plain_vectors) = (held(areas), held(vectors));
    let number = viewer::curvature(mesh.lent(), &mut proved, &mut proved_vectors);
    let expected = reference::curvature::curvature(
        &mesh.points,
        &mesh.triangles,
        &mesh.marks,
        &mut plain,
        &mut plain_vectors,
    );
    assert_eq!(number, expected);
    assert_eq!(bits(&proved), bits(&plain));
    assert_eq!(bits(&proved_vectors), bits(&plain_vectors));
    if number != 0 {
        assert_eq!((&proved, &proved_vectors), (&held(areas), &held(vectors)));
    }
    (number, proved, proved_vectors)
}

/// A granted call, and every point's answer read back on both sides.
fn same(mesh: &Caller) -> (Vec<f64>, Vec<f64>) {
    let count = mesh.marks.len();
    let (number, areas, vectors) = same_in(mesh, count, 3 * count);
    assert_eq!(number, 0);
    for point in 0..count as u32 {
        same_answer(&mesh.marks, &areas, &vectors, point);
    }
    (areas, vectors)
}

/// One answer read back on both sides; answers the number and the kind.
fn same_answer(marks: &[u8], areas: &[f64], vectors: &[f64], point: u32) -> (u32, u32) {
    let mut kind = 77;
    let mut values = [-9.25; 4];
    let number = viewer::answer(marks, areas, vectors, point, &mut kind, &mut values);
    let (expected, expected_kind, expected_values) =
        match reference::curvature::answer(marks, areas, vectors, point) {
            Err(number) => (number, 77, [-9.25; 4]),
            Ok(Answer::Open(area)) => (0, 0, [area, 0.0, 0.0, 0.0]),
            Ok(Answer::Flat) => (0, 1, [0.0; 4]),
            Ok(Answer::Bent(area, [x, y, z])) => (0, 2, [area, x, y, z]),
        };
    assert_eq!((number, kind), (expected, expected_kind), "point {point}");
    assert_eq!(bits(&values), bits(&expected_values), "point {point}");
    (number, kind)
}

#[test]
fn extracted_meshes_raw_and_smoothed() {
    let mut seed = Seed::new(31);
    for sides in [[4, 4, 4], [7, 5, 6], [2, 9, 3], [12, 12, 12]] {
        for bound in [2, 200, 65_536] {
            let mesh = extracted(&mut seed, sides, bound);
            same(&mesh);
            same(&smoothed(&mesh, 1, 256));
            same(&smoothed(&mesh, 10, 128));
        }
    }
}

#[test]
fn the_figure_of_document_01() {
    let mut samples = vec![0; 27];
    samples[13] = 100;
    let mesh = smoothed(&tools::mesh_of([3, 3, 3], 50, &samples), 1, 256);
    let (areas, vectors) = same(&mesh);
    for point in 0..6 {
        assert_eq!(same_answer(&mesh.marks, &areas, &vectors, point), (0, 1));
    }
}

#[test]
fn one_right_triangle() {
    let mesh = Caller {
        points: vec![0, 0, 0, 256, 0, 0, 0, 256, 0],
        triangles: vec![0, 1, 2],
        marks: vec![1; 3],
    };
    let (areas, vectors) = same(&mesh);
    assert_eq!(areas, [16_384.0, 8_192.0, 8_192.0]);
    assert_eq!(bits(&vectors), [0; 9]);
}

/// The triangle with these corners, whose squared cross product is N.
fn of_number(corners: [[u32; 3]; 3], n: u64) -> Caller {
    let side = |to: usize, axis: usize| corners[to][axis] as i64 - corners[0][axis] as i64;
    let cross = |a: usize, b: usize| side(1, a) * side(2, b) - side(1, b) * side(2, a);
    let squared = cross(1, 2).pow(2) + cross(2, 0).pow(2) + cross(0, 1).pow(2);
    assert_eq!(squared as u64, n);
    Caller {
        points: corners.concat(),
        triangles: vec![0, 1, 2],
        marks: vec![0; 3],
    }
}

#[test]
fn numbers_that_are_squares_and_next_to_them() {
    for r in [1, 2, 3, 4, 7, 255, 256, 4_095, 8_191, 8_192, 16_128] {
        let n = u64::from(r).pow(2);
        same(&of_number([[0, 0, 0], [r, 0, 0], [0, 1, 0]], n));
        same(&of_number([[0, 0, 0], [1, 0, 0], [0, r, 1]], n + 1));
        same(&of_number([[0, 0, 0], [r, 0, 0], [0, r, 0]], n * n));
    }
    for k in [1, 2, 3, 5, 20, 181, 1_000, 4_097, 8_064] {
        let n = (2 * u64::from(k).pow(2) + 1).pow(2);
        same(&of_number([[0, 0, 0], [0, 2 * k, 0], [k, 0, 1]], n - 1));
    }
}

/// From 4^k on, up to 4^(k+1), every N is scaled by the same s. From k = 2 on, 4^k - 1 is no sum of three squares, so that no N is between the numbers
/// tried here and 4^k; and 4^28 is one in one way only, which is too wide for the grid.
#[test]
fn the_least_and_the_greatest_number_of_a_scaling() {
    for k in 0..=26u32 {
        let (wide, high) = (1 << k.min(13), 1 << k.saturating_sub(13));
        same(&of_number(
            [[0, 0, 0], [wide, 0, 0], [0, high, 0]],
            1 << (2 * k),
        ));
    }
    let least = [
        (27, 0, [[0, 0, 0], [16_128, 1, 0], [15_616, 8_323, 0]]),
        (
            28,
            1,
            [[6_211, 0, 14_479], [16_066, 440, 1_183], [0, 9_024, 0]],
        ),
    ];
    for (k, above, corners) in least {
        same(&of_number(corners, (1 << (2 * k)) + above));
    }
    let greatest = [
        (1, 1, [[2, 1, 1], [3, 0, 1], [0, 4, 0]]),
        (2, 2, [[2, 1, 1], [3, 0, 0], [0, 2, 5]]),
        (5, 2, [[1, 4, 5], [2, 3, 0], [0, 0, 16]]),
        (9, 2, [[1, 2, 41], [0, 15, 52], [2, 0, 0]]),
        (13, 2, [[79, 17, 5], [82, 0, 44], [0, 213, 0]]),
        (16, 2, [[278, 170, 60], [365, 0, 221], [0, 545, 0]]),
        (20, 2, [[251, 38, 1_223], [0, 333, 1_036], [2_511, 0, 0]]),
        (
            24,
            2,
            [[2_189, 0, 2_909], [1_751, 1_260, 0], [0, 1_945, 9_436]],
        ),
        (
            27,
            2,
            [[4_669, 12_881, 5_332], [13_008, 12_659, 0], [0, 0, 12_657]],
        ),
        (
            28,
            2,
            [[16_090, 0, 472], [15_187, 13_590, 0], [0, 5_555, 12_163]],
        ),
    ];
    for (k, below, corners) in greatest {
        same(&of_number(corners, (1 << (2 * k)) - below));
    }
    let far = [[0, 0, 0], [16_128, 16_128, 0], [16_128, 0, 16_128]];
    same(&of_number(far, 3 * 16_128u64.pow(4)));
}

/// Points whose coordinates are made up by a rule, and triangles between them.
fn made_up(
    seed: &mut Seed,
    count: u64,
    triangles: usize,
    place: &dyn Fn(&mut Seed) -> u32,
) -> Caller {
    let points = (0..3 * count).map(|_| place(seed)).collect();
    let named = made_up_triangles(seed, count, triangles);
    let marks = (0..count).map(|_| (seed.below(4) == 0) as u8).collect();
    Caller {
        points,
        triangles: named,
        marks,
    }
}

#[test]
fn slivers_obtuse_right_and_flat_triangles() {
    let mut seed = Seed::new(32);
    let rules: [&dyn Fn(&mut Seed) -> u32; 5] = [
        &|seed| seed.below(16_129) as u32,
        &|seed| seed.below(3) as u32,
        &|seed| 16_126 + seed.below(3) as u32,
        &|seed| 16_128 * seed.below(2) as u32,
        &|seed| 256 * seed.below(5) as u32,
    ];
    for place in rules {
        for (count, triangles) in [(3, 1), (4, 6), (40, 150), (300, 900)] {
            for _ in 0..4 {
                same(&made_up(&mut seed, count, triangles, place));
            }
        }
    }
}

#[test]
fn no_points_and_no_triangles() {
    let none = Caller {
        points: vec![],
        triangles: vec![],
        marks: vec![],
    };
    same(&none);
    let lone = Caller {
        points: vec![5; 12],
        triangles: vec![],
        marks: vec![0, 1, 0, 1],
    };
    let (areas, vectors) = same(&lone);
    assert_eq!(bits(&areas), [0; 4]);
    assert_eq!(bits(&vectors), [0; 12]);
}

/// Each refusal made true or not, all 32 ways: the first that is true in the order 6, 7, 8, 9, 3 is answered.
#[test]
fn refusals_in_order() {
    let mut seed = Seed::new(33);
    let whole = extracted(&mut seed, [3, 3, 3], 50);
    for wrong in 0..32u32 {
        let mesh = spoiled(&whole, wrong);
        let count = whole.marks.len();
        let off = (wrong >> 4) as usize;
        for (areas, vectors) in [
            (count + off, 3 * count),
            (count, 3 * count - off),
            (count - off, 3 * count + off),
        ] {
            let number = same_in(&mesh, areas, vectors).0;
            assert_eq!(number, first_of(&[6, 7, 8, 9, 3], wrong));
        }
    }
}

#[test]
fn an_answer_read_back_from_any_rooms() {
    let odd = [0.0, -0.0, f64::NAN, f64::INFINITY, -3.5, 1e-320, 7.0];
    for marks in 0..=3usize {
        for areas in 0..=3usize {
            for vectors in [0, 1, 3, 6, 8, 9] {
                for point in [0, 1, 2, 3, u32::MAX] {
                    for mark in [0, 1, 2, 255] {
                        for shift in 0..odd.len() {
                            let pick = |length: usize| -> Vec<f64> {
                                (0..length).map(|i| odd[(i + shift) % odd.len()]).collect()
                            };
                            let (number, kind) = same_answer(
                                &vec![mark; marks],
                                &pick(areas),
                                &pick(vectors),
                                point,
                            );
                            let fits = areas == marks && vectors == 3 * marks;
                            let expected = match (fits, (point as usize) < marks, mark < 2) {
                                (false, _, _) => 6,
                                (true, false, _) => 14,
                                (true, true, false) => 9,
                                (true, true, true) => 0,
                            };
                            assert_eq!(number, expected);
                            assert_eq!(kind == 77, number != 0);
                        }
                    }
                }
            }
        }
    }
}
