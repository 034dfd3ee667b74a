//! Smoothing and showing one point.

use crate::tools::{extracted, faulty_meshes, random_mesh, small_mesh, Grid, Mesh, Random};
use reference::smooth::{show, smooth, smoothed_coordinate};

/// The number of a call and both of its rooms after it; the rooms have the
/// right lengths plus the given excess and start with guard values.
fn call(mesh: &Mesh, rounds: u32, weight: u32, excess: [isize; 2]) -> (u32, Vec<u32>, Vec<u32>) {
    let (mut smoothed, mut work) = rooms(mesh, excess);
    let number = smooth(
        &mesh.points,
        &mesh.triangles,
        &mesh.marks,
        rounds,
        weight,
        &mut smoothed,
        &mut work,
    );
    (number, smoothed, work)
}

fn rooms(mesh: &Mesh, excess: [isize; 2]) -> (Vec<u32>, Vec<u32>) {
    let (v, t) = (mesh.marks.len(), mesh.triangle_count());
    let smoothed = (3 * v).checked_add_signed(excess[0]).unwrap() as u32;
    let work = (6 * t + 5 * v + 1).checked_add_signed(excess[1]).unwrap() as u32;
    (
        (0..smoothed).map(|i| 3_000_000_000 + i).collect(),
        (0..work).map(|i| 4_000_000_000 + i).collect(),
    )
}

/// A call with these rooms refuses with `number` and leaves both rooms.
fn assert_refused(mesh: &Mesh, rounds: u32, weight: u32, excess: [isize; 2], number: u32) {
    let (smoothed, work) = rooms(mesh, excess);
    assert_eq!(call(mesh, rounds, weight, excess), (number, smoothed, work));
}

/// The smoothed points of a granted call.
pub fn smoothed(mesh: &Mesh, rounds: u32, weight: u32) -> Vec<u32> {
    let (number, smoothed, work) = call(mesh, rounds, weight, [0, 0]);
    assert_eq!(number, 0);
    assert!(work.iter().all(|&number| number == 0));
    smoothed
}

#[test]
fn coordinate_figures() {
    assert_eq!(smoothed_coordinate(10, 3, 20 + 21 + 21, 256), 21);
    assert_eq!(smoothed_coordinate(10, 3, 20 + 21 + 21, 128), 15);
}

/// The figure through a whole call: a fan of three triangles round one point.
#[test]
fn coordinate_figures_in_a_mesh() {
    let mesh = Mesh {
        points: vec![10, 0, 16_128, 20, 1, 16_128, 21, 0, 16_128, 21, 0, 16_127],
        triangles: vec![0, 1, 2, 0, 2, 3, 0, 3, 1],
        marks: vec![0, 1, 1, 1],
    };
    assert_eq!(smoothed(&mesh, 1, 256)[..3], [21, 0, 16_128]);
    assert_eq!(smoothed(&mesh, 1, 128)[..3], [15, 0, 16_128]);
    assert_eq!(smoothed(&mesh, 1, 0), mesh.points);
    assert_eq!(smoothed(&mesh, 0, 256), mesh.points);
}

#[test]
fn halves_go_up() {
    assert_eq!(smoothed_coordinate(0, 2, 1, 256), 1);
    assert_eq!(smoothed_coordinate(0, 1, 1, 128), 1);
    assert_eq!(smoothed_coordinate(1, 1, 0, 128), 1);
    assert_eq!(smoothed_coordinate(0, 1, 1, 127), 0);
    assert_eq!(
        smoothed_coordinate(16_128, 249_999, 249_999 * 16_128, 255),
        16_128
    );
}

#[test]
fn centre_figure() {
    let (mesh, _) = extracted(&Grid::centre());
    assert_eq!(smoothed(&mesh, 1, 256), [256; 18]);
}

/// A point that reads a neighbour already moved in the same round would stand
/// elsewhere.
#[test]
fn a_round_reads_the_old_places() {
    let mesh = Mesh {
        points: vec![0, 0, 0, 300, 0, 0, 0, 300, 0],
        triangles: vec![0, 1, 2],
        marks: vec![0, 0, 0],
    };
    let once = [150, 150, 0, 0, 150, 0, 150, 0, 0];
    assert_eq!(smoothed(&mesh, 1, 256), once);
    let again = [75, 75, 0, 150, 75, 0, 75, 150, 0];
    assert_eq!(smoothed(&mesh, 2, 256), again);
}

/// A side used four times weighs no more than a side used once.
#[test]
fn a_neighbour_counts_once() {
    let mut mesh = small_mesh();
    let once = smoothed(&mesh, 1, 200);
    mesh.triangles.extend([0, 1, 3, 1, 0, 3, 3, 0, 1]);
    assert_eq!(smoothed(&mesh, 1, 200), once);
}

#[test]
fn marked_and_lonely_points_stay() {
    let mesh = small_mesh();
    let places = smoothed(&mesh, 7, 256);
    assert_eq!(places[3..6], mesh.points[3..6]);
    assert_eq!(places[12..], mesh.points[12..]);
    for moved in [0, 2, 3] {
        let range = 3 * moved..3 * moved + 3;
        assert_ne!(places[range.clone()], mesh.points[range]);
    }
}

/// Each new coordinate q is the one with −256d ≤ 2·(exact − 256d·q) < 256d.
fn assert_is_round(old: &[u32], new: &[u32], mesh: &Mesh, weight: i128) {
    for (p, &mark) in mesh.marks.iter().enumerate() {
        let shares_side = |q: usize| {
            q != p
                && mesh
                    .triangles
                    .chunks(3)
                    .any(|t| t.contains(&(p as u32)) && t.contains(&(q as u32)))
        };
        let around: Vec<usize> = (0..mesh.marks.len()).filter(|&q| shares_side(q)).collect();
        let d = around.len() as i128;
        for axis in 0..3 {
            let was = i128::from(old[3 * p + axis]);
            let is = i128::from(new[3 * p + axis]);
            if mark == 1 || d == 0 {
                assert_eq!(is, was);
                continue;
            }
            let sum: i128 = around.iter().map(|&q| i128::from(old[3 * q + axis])).sum();
            let twice = 2 * ((256 - weight) * d * was + weight * sum - 256 * d * is);
            assert!(-256 * d <= twice && twice < 256 * d);
        }
    }
}

#[test]
fn random_meshes_follow_the_rule_round_by_round() {
    let mut random = Random::new(21);
    for _ in 0..60 {
        let (v, t) = (3 + random.below(15), random.below(25));
        let most = [3, 300, 16_128][random.below(3) as usize];
        let mesh = random_mesh(&mut random, v, t, most);
        let weight = random.below(257);
        let mut old = mesh.points.clone();
        for rounds in 1..4 {
            let new = smoothed(&mesh, rounds, weight);
            assert_is_round(&old, &new, &mesh, i128::from(weight));
            old = new;
        }
    }
}

/// Round after round on the last result is the same as all rounds in one call.
#[test]
fn rounds_are_iterated() {
    let mut random = Random::new(22);
    let mesh = random_mesh(&mut random, 12, 14, 16_128);
    let mut step = mesh.clone();
    for _ in 0..100 {
        step.points = smoothed(&step, 1, 3);
    }
    assert_eq!(smoothed(&mesh, 100, 3), step.points);
    assert_ne!(smoothed(&mesh, 99, 3), step.points);
}

#[test]
fn limits_of_rounds_and_weight() {
    let mesh = small_mesh();
    for (rounds, weight) in [(100, 256), (0, 256), (100, 0)] {
        assert_eq!(call(&mesh, rounds, weight, [0, 0]).0, 0);
    }
    for (rounds, weight) in [(101, 0), (0, 257), (u32::MAX, u32::MAX), (101, 256)] {
        assert_refused(&mesh, rounds, weight, [0, 0], 10);
        assert_refused(&mesh, rounds, weight, [1, -1], 10);
    }
}

#[test]
fn faulty_meshes_are_refused_before_anything_else() {
    for (number, mesh) in faulty_meshes() {
        assert_refused(&mesh, 1, 1, [0, 0], number);
        assert_refused(&mesh, 101, 257, [1, 1], number);
    }
}

#[test]
fn rooms_have_exact_lengths() {
    let mesh = small_mesh();
    for excess in [[1, 0], [-1, 0], [0, 1], [0, -1], [3, 5], [-15, -50]] {
        assert_refused(&mesh, 1, 256, excess, 3);
    }
}

#[test]
fn an_empty_mesh_is_granted() {
    let mesh = Mesh {
        points: vec![],
        triangles: vec![],
        marks: vec![],
    };
    assert_eq!(call(&mesh, 5, 5, [0, 0]), (0, vec![], vec![0]));
    assert_refused(&mesh, 5, 5, [0, -1], 3);
}

#[test]
fn one_point_is_shown_from_either_list() {
    let raw = [1, 2, 3, 4, 5, 6];
    let smoothed = [11, 12, 13, 14, 15, 16];
    for point in 0..2 {
        let at = 3 * point as usize;
        let mut number = 77;
        assert_eq!(
            show(&raw, &smoothed, false, point, &mut number),
            &raw[at..at + 3]
        );
        assert_eq!(number, 0);
        number = 77;
        assert_eq!(
            show(&raw, &smoothed, true, point, &mut number),
            &smoothed[at..at + 3]
        );
        assert_eq!(number, 0);
    }
}

#[test]
fn showing_refuses_with_6_then_14() {
    let list = [1, 2, 3, 4, 5, 6, 7];
    for (one, other, point, wanted) in [
        (6, 3, 0, 6),
        (3, 6, 1, 6),
        (6, 7, 0, 6),
        (7, 7, 0, 6),
        (4, 4, 9, 6),
        (6, 3, 9, 6),
        (6, 6, 2, 14),
        (6, 6, u32::MAX, 14),
        (0, 0, 0, 14),
    ] {
        for second in [false, true] {
            let mut number = 0;
            let part = show(&list[..one], &list[..other], second, point, &mut number);
            assert!(part.is_empty());
            assert_eq!(number, wanted);
        }
    }
}
