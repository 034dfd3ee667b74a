//! The checks of a mesh, and neighbours.

use crate::tools::{faulty_meshes, random_mesh, small_mesh, Random};
use reference::mesh::{check, neighbours};
use std::collections::BTreeSet;

#[test]
fn a_mesh_without_fault_passes() {
    let mesh = small_mesh();
    assert_eq!(check(&mesh.points, &mesh.triangles, &mesh.marks), 0);
    assert_eq!(check(&[], &[], &[]), 0);
    assert_eq!(check(&[1, 2, 3], &[], &[1]), 0);
}

#[test]
fn refusals_come_in_their_order() {
    for (number, mesh) in faulty_meshes() {
        assert_eq!(check(&mesh.points, &mesh.triangles, &mesh.marks), number);
    }
}

#[test]
fn lengths_must_fit() {
    assert_eq!(check(&[], &[], &[0]), 6);
    assert_eq!(check(&[0; 3], &[], &[]), 6);
    assert_eq!(check(&[0; 8], &[], &[0; 3]), 6);
    assert_eq!(check(&[0; 10], &[], &[0; 3]), 6);
    assert_eq!(check(&[0; 9], &[0, 1], &[0; 3]), 6);
    assert_eq!(check(&[0; 9], &[0, 1, 2, 0], &[0; 3]), 6);
    assert_eq!(check(&[0; 9], &[0, 1, 2], &[0; 3]), 0);
}

#[test]
fn bounds_of_points_and_triangles() {
    assert_eq!(check(&vec![0; 750_000], &[], &vec![0; 250_000]), 0);
    assert_eq!(check(&vec![0; 750_003], &[], &vec![0; 250_001]), 6);
    let triangles = [2, 0, 1].repeat(500_001);
    assert_eq!(check(&[0; 9], &triangles[3..], &[0; 3]), 0);
    assert_eq!(check(&[0; 9], &triangles, &[0; 3]), 6);
}

#[test]
fn each_place_of_a_triangle_is_checked() {
    let mesh = small_mesh();
    for at in 0..mesh.triangles.len() {
        for point in [5, 6, u32::MAX] {
            let mut triangles = mesh.triangles.clone();
            triangles[at] = point;
            assert_eq!(check(&mesh.points, &triangles, &mesh.marks), 7);
        }
        let mut triangles = mesh.triangles.clone();
        triangles[at] = triangles[at / 3 * 3 + (at + 1) % 3];
        assert_eq!(check(&mesh.points, &triangles, &mesh.marks), 7);
        triangles[at] = 4;
        assert_eq!(check(&mesh.points, &triangles, &mesh.marks), 0);
    }
}

#[test]
fn coordinate_16_128_is_taken_and_16_129_refused() {
    let mesh = small_mesh();
    for at in 0..mesh.points.len() {
        for (coordinate, number) in [(16_128, 0), (16_129, 8), (u32::MAX, 8)] {
            let mut points = mesh.points.clone();
            points[at] = coordinate;
            assert_eq!(check(&points, &mesh.triangles, &mesh.marks), number);
        }
    }
}

#[test]
fn marks_are_0_or_1() {
    let mesh = small_mesh();
    for at in 0..mesh.marks.len() {
        for (mark, number) in [(0, 0), (1, 0), (2, 9), (255, 9)] {
            let mut marks = mesh.marks.clone();
            marks[at] = mark;
            assert_eq!(check(&mesh.points, &mesh.triangles, &marks), number);
        }
    }
}

#[test]
fn neighbours_are_counted_once() {
    let mut random = Random::new(11);
    for _ in 0..50 {
        let (v, t) = (3 + random.below(12), random.below(30));
        let mesh = random_mesh(&mut random, v, t, 100);
        let lists = neighbours(v as usize, &mesh.triangles);
        for (p, list) in (0..v).zip(lists) {
            let wanted: BTreeSet<u32> = mesh
                .triangles
                .chunks(3)
                .filter(|t| t.contains(&p))
                .flatten()
                .copied()
                .filter(|&q| q != p)
                .collect();
            assert_eq!(list, wanted.into_iter().collect::<Vec<_>>());
        }
    }
}
