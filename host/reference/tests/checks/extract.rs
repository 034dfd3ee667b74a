//! The extractor: figures, limits, refusals, rooms, and a second way to the
//! same mesh.

use crate::tools::{
    exactly_250_000_points, exactly_500_000_triangles, extracted, one_point_more,
    one_triangle_more, random_grid, Grid, Mesh, Random, Rooms,
};
use reference::cube;
use reference::extract::Extracted;
use reference::grid::offset;
use reference::smooth::smooth;
use std::collections::{BTreeMap, BTreeSet};

fn refused(number: u32) -> Extracted {
    Extracted {
        number,
        points: 0,
        triangles: 0,
    }
}

/// A call on these rooms refuses with `number`; the result rooms stay, and the
/// work room stays up to refusal 3 and is zero after it.
fn assert_refused(grid: &Grid, rooms: &Rooms, number: u32) {
    let mut after = rooms.clone();
    assert_eq!(after.extract(grid), refused(number));
    if number <= 3 {
        assert_eq!(after, *rooms);
    } else {
        assert_eq!(after, rooms.with_zero_work());
    }
}

#[test]
fn offset_figures() {
    assert_eq!(offset(0, 3, 1), 85);
    assert_eq!(offset(0, 512, 1), 1);
    assert_eq!(offset(10, 0, 10), 0);
    assert_eq!(offset(0, 5, 5), 256);
    assert_eq!(offset(0, 65_535, 65_535), 256);
    assert_eq!(offset(65_535, 0, 1), 256);
    assert_eq!(offset(512, 0, 511), 1);
    assert_eq!(offset(512, 0, 512), 0);
}

#[test]
fn centre_figure() {
    let (mesh, edges) = extracted(&Grid::centre());
    assert_eq!(edges, [14, 31, 36, 39, 40, 41]);
    assert_eq!(mesh.marks, [0; 6]);
    assert_eq!(mesh.triangle_count(), 8);
    assert_eq!(mesh.triangles[..3], [2, 0, 1]);
    let wanted = [
        [256, 256, 128],
        [256, 128, 256],
        [128, 256, 256],
        [384, 256, 256],
        [256, 384, 256],
        [256, 256, 384],
    ];
    assert_eq!(mesh.points, wanted.concat());
}

#[test]
fn results_stand_in_front_and_the_rest_stays() {
    let before = Rooms::guarded(23, 9, 8, 29, 81);
    let mut rooms = before.clone();
    let answer = rooms.extract(&Grid::centre());
    assert_eq!(
        answer,
        Extracted {
            number: 0,
            points: 6,
            triangles: 8
        }
    );
    let (mesh, edges) = extracted(&Grid::centre());
    assert_eq!(rooms.points[..18], mesh.points);
    assert_eq!(rooms.points[18..], before.points[18..]);
    assert_eq!(rooms.edges[..6], edges);
    assert_eq!(rooms.edges[6..], before.edges[6..]);
    assert_eq!(rooms.marks[..6], mesh.marks);
    assert_eq!(rooms.marks[6..], before.marks[6..]);
    assert_eq!(rooms.triangles[..24], mesh.triangles);
    assert_eq!(rooms.triangles[24..], before.triangles[24..]);
    assert_eq!(rooms.work, [0; 81]);
}

/// "A room for points or triangles counts its whole threes."
#[test]
fn rooms_just_large_enough_are_taken_and_smaller_ones_refused() {
    let grid = Grid::centre();
    for (points, edges, marks, triangles) in [(18, 6, 6, 24), (19, 6, 6, 25), (20, 6, 6, 26)] {
        let mut rooms = Rooms::guarded(points, edges, marks, triangles, 81);
        assert_eq!(rooms.extract(&grid).number, 0);
    }
    for (points, edges, marks) in [(17, 6, 6), (15, 6, 6), (0, 6, 6), (18, 5, 6), (18, 6, 5)] {
        assert_refused(&grid, &Rooms::guarded(points, edges, marks, 24, 81), 4);
        assert_refused(&grid, &Rooms::guarded(points, edges, marks, 0, 81), 4);
    }
    for triangles in [23, 22, 21, 0] {
        assert_refused(&grid, &Rooms::guarded(18, 6, 6, triangles, 81), 5);
    }
}

#[test]
fn work_room_has_exactly_three_numbers_per_sample() {
    let grid = Grid::centre();
    for work in [0, 80, 82, 27] {
        assert_refused(&grid, &Rooms::guarded(18, 6, 6, 24, work), 3);
        assert_refused(&grid, &Rooms::guarded(0, 0, 0, 0, work), 3);
    }
}

#[test]
fn samples_are_as_many_as_the_sides_say() {
    for count in [0, 26, 28] {
        let mut grid = Grid::centre();
        grid.samples.resize(count, 0);
        assert_refused(&grid, &Rooms::guarded(18, 6, 6, 24, 81), 2);
        assert_refused(&grid, &Rooms::guarded(0, 0, 0, 0, 7), 2);
    }
}

#[test]
fn sides_are_2_to_64() {
    for axis in 0..3 {
        for side in [0, 1, 65, 66, 65_536, u32::MAX] {
            let mut grid = Grid::filled([2, 3, 2], 50, 0);
            grid.sides[axis] = side;
            assert_refused(&grid, &Rooms::guarded(18, 6, 6, 24, 36), 1);
            assert_refused(&grid, &Rooms::guarded(0, 0, 0, 0, 0), 1);
        }
        for side in [2, 64] {
            let mut sides = [3, 3, 3];
            sides[axis] = side;
            let mut grid = Grid::filled(sides, 50, 0);
            let mut far = [1, 1, 1];
            far[axis] = side - 1;
            grid.set(far, 100);
            let (mesh, edges) = extracted(&grid);
            assert_eq!((edges.len(), mesh.triangle_count()), (5, 4));
            let mut along: Vec<u32> = mesh.points.chunks(3).map(|p| p[axis]).collect();
            along.sort_unstable();
            let last = 256 * (side - 1);
            assert_eq!(along, [last - 128, last, last, last, last]);
        }
    }
    for sides in [[1, 1, 1], [65, 65, 65], [0, 0, 0], [u32::MAX; 3]] {
        let grid = Grid {
            sides,
            grey: 1,
            samples: vec![0],
        };
        assert_refused(&grid, &Rooms::guarded(18, 6, 6, 24, 3), 1);
    }
}

/// Sides whose product is 0 or 8 in 32 bits are refused like any other.
#[test]
fn products_that_wrap_are_refused() {
    for sides in [
        [65_536, 65_536, 2],
        [2, 2, 1_073_741_826],
        [4_294_967_295; 3],
    ] {
        let grid = Grid {
            sides,
            grey: 1,
            samples: vec![0; 8],
        };
        assert_refused(&grid, &Rooms::guarded(18, 6, 6, 24, 24), 1);
    }
}

#[test]
fn grey_value_0_gives_an_empty_mesh() {
    let mut grid = Grid::centre();
    grid.grey = 0;
    for rooms in [
        Rooms::guarded(0, 0, 0, 0, 81),
        Rooms::guarded(18, 6, 6, 24, 81),
    ] {
        let mut after = rooms.clone();
        let granted = refused(0);
        assert_eq!(after.extract(&grid), granted);
        assert_eq!(after, rooms.with_zero_work());
    }
}

#[test]
fn all_below_gives_an_empty_mesh() {
    let (mesh, edges) = extracted(&Grid::filled([4, 2, 3], 65_535, 65_534));
    assert_eq!((mesh.points.len(), edges.len()), (0, 0));
    assert_eq!(mesh.triangles.len(), 0);
}

#[test]
fn exactly_250_000_points_are_taken() {
    let (exact, over) = (exactly_250_000_points(), one_point_more());
    let rooms = Rooms::guarded(750_003, 250_001, 250_001, 1_500_003, 786_432);
    let mut after = rooms.clone();
    let answer = after.extract(&exact);
    assert_eq!((answer.number, answer.points), (0, 250_000));
    assert_eq!(answer.triangles, 41_666 * 8 + 2);
    assert_eq!(after.points[750_000..], rooms.points[750_000..]);
    assert_refused(&over, &rooms, 4);
}

#[test]
fn exactly_500_000_triangles_are_taken() {
    let (exact, over) = (exactly_500_000_triangles(), one_triangle_more());
    let rooms = Rooms::guarded(750_003, 250_001, 250_001, 1_500_003, 786_432);
    let mut after = rooms.clone();
    let answer = after.extract(&exact);
    assert_eq!((answer.number, answer.triangles), (0, 500_000));
    assert_eq!(after.triangles[1_500_000..], rooms.triangles[1_500_000..]);
    assert_refused(&over, &rooms, 5);
}

/// A full checkerboard crosses all 774,144 grid edges.
#[test]
fn a_checkerboard_of_side_64_has_too_many_points() {
    let rooms = Rooms::guarded(3 * 774_144, 774_144, 774_144, 15 * 262_144, 786_432);
    assert_refused(&Grid::checkerboard(), &rooms, 4);
}

/// A second way to the mesh of a grid: edge by edge through the numbers, the
/// offset searched for by its inequality, triangles looked up by the two
/// samples of an edge.
fn second_way(grid: &Grid) -> (Mesh, Vec<u32>) {
    let [nx, ny, nz] = grid.sides.map(|side| side as usize);
    let strides = [1, nx, nx * ny];
    let above = |s: usize| grid.samples[s] >= grid.grey;
    let (mut points, mut edges, mut marks) = (Vec::new(), Vec::new(), Vec::new());
    let mut number_of = BTreeMap::new();
    for e in 0..3 * nx * ny * nz {
        let (s, a) = (e / 3, e % 3);
        let at = [s % nx, s / nx % ny, s / (nx * ny)];
        if at[a] + 1 == [nx, ny, nz][a] || above(s) == above(s + strides[a]) {
            continue;
        }
        let (v0, v1) = (grid.samples[s], grid.samples[s + strides[a]]);
        let g = i64::from(grid.grey);
        let numerator = 256 * (g - i64::from(v0)).abs();
        let denominator = (i64::from(v1) - i64::from(v0)).abs();
        let offset = (0..=256_i64)
            .find(|q| {
                let twice = 2 * numerator - 2 * q * denominator;
                -denominator <= twice && twice < denominator
            })
            .unwrap();
        let mut place = at.map(|coordinate| 256 * coordinate as u32);
        place[a] += offset as u32;
        points.extend(place);
        let (b, c) = ((a + 1) % 3, (a + 2) % 3);
        let last = [nx - 1, ny - 1, nz - 1];
        let rim = at[b] == 0 || at[c] == 0 || at[b] == last[b] || at[c] == last[c];
        marks.push(u8::from(rim));
        number_of.insert((s, s + strides[a]), edges.len() as u32);
        edges.push(e as u32);
    }
    let mut triangles = Vec::new();
    for cube in 0..nx * ny * nz {
        let (x, y, z) = (cube % nx, cube / nx % ny, cube / (nx * ny));
        if x + 1 == nx || y + 1 == ny || z + 1 == nz {
            continue;
        }
        let sample = |c: usize| cube + (c & 1) + (c >> 1 & 1) * nx + (c >> 2) * nx * ny;
        let case = (0..8)
            .map(|c| u32::from(above(sample(c))) << c)
            .sum::<u32>();
        for edge in cube::triangles(case as u8).concat() {
            let e = usize::from(edge % 4);
            let (one, two) = (e & 1, e >> 1);
            let low = [2 * one + 4 * two, one + 4 * two, one + 2 * two][usize::from(edge / 4)];
            let high = low + [1, 2, 4][usize::from(edge / 4)];
            triangles.push(number_of[&(sample(low), sample(high))]);
        }
    }
    let mesh = Mesh {
        points,
        triangles,
        marks,
    };
    (mesh, edges)
}

#[test]
fn random_grids_agree_with_the_second_way() {
    let mut random = Random::new(1);
    for _ in 0..300 {
        let grid = random_grid(&mut random);
        assert_eq!(extracted(&grid), second_way(&grid));
    }
}

/// The outer faces that a grid edge lies on, as bits.
fn outer_faces(grid: &Grid, edge: u32) -> u32 {
    let [nx, ny, _] = grid.sides;
    let (s, a) = (edge / 3, edge as usize % 3);
    let at = [s % nx, s / nx % ny, s / (nx * ny)];
    let mut faces = 0;
    for axis in (0..3).filter(|&axis| axis != a) {
        if at[axis] == 0 {
            faces |= 1 << (2 * axis);
        }
        if at[axis] == grid.sides[axis] - 1 {
            faces |= 2 << (2 * axis);
        }
    }
    faces
}

/// "off the outer faces, two points joined by a triangle side are joined by
/// exactly one triangle each way." Two points of one outer face are joined by
/// one triangle at most.
#[test]
fn sides_off_the_outer_faces_have_one_side_back() {
    let mut random = Random::new(2);
    let (mut inner, mut rim) = (0, 0);
    for _ in 0..200 {
        let grid = random_grid(&mut random);
        let (mesh, edges) = extracted(&grid);
        let mut sides = BTreeSet::new();
        for t in mesh.triangles.chunks(3) {
            for side in [(t[0], t[1]), (t[1], t[2]), (t[2], t[0])] {
                assert!(sides.insert(side), "a side comes once");
            }
        }
        for &(from, to) in &sides {
            let shared =
                outer_faces(&grid, edges[from as usize]) & outer_faces(&grid, edges[to as usize]);
            assert_eq!(sides.contains(&(to, from)), shared == 0);
            if shared == 0 {
                inner += 1;
            } else {
                rim += 1;
            }
        }
        for (edge, mark) in edges.iter().zip(&mesh.marks) {
            assert_eq!(*mark, u8::from(outer_faces(&grid, *edge) != 0));
        }
    }
    assert!(inner > 1000 && rim > 1000);
}

/// An extracted mesh passes the checks of every call on a mesh.
#[test]
fn extracted_meshes_are_smoothed() {
    let mut random = Random::new(3);
    for _ in 0..50 {
        let (mesh, _) = extracted(&random_grid(&mut random));
        let mut smoothed = vec![0; mesh.points.len()];
        let mut work = vec![1; 6 * mesh.triangle_count() + 5 * mesh.marks.len() + 1];
        let number = smooth(
            &mesh.points,
            &mesh.triangles,
            &mesh.marks,
            3,
            100,
            &mut smoothed,
            &mut work,
        );
        assert_eq!(number, 0);
        for (point, mark) in mesh.marks.iter().enumerate() {
            let range = 3 * point..3 * point + 3;
            assert!(*mark == 0 || smoothed[range.clone()] == mesh.points[range]);
        }
    }
}
