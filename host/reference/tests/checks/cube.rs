//! One cube: the figures and the face rule over all cases.

use reference::cube;
use std::collections::{BTreeMap, BTreeSet};

/// Twice the middle of a cube edge.
fn middle(edge: u8) -> [i32; 3] {
    let (_, low, high) = cube::edge_ends(edge);
    let (low, high) = (cube::corner_place(low), cube::corner_place(high));
    [0, 1, 2].map(|axis| i32::from(low[axis]) + i32::from(high[axis]))
}

fn minus(a: [i32; 3], b: [i32; 3]) -> [i32; 3] {
    [0, 1, 2].map(|axis| a[axis] - b[axis])
}

fn cross(a: [i32; 3], b: [i32; 3]) -> [i32; 3] {
    [0, 1, 2].map(|i| {
        let (j, k) = ((i + 1) % 3, (i + 2) % 3);
        a[j] * b[k] - a[k] * b[j]
    })
}

#[test]
fn figures() {
    let figures: [(u8, &[[u8; 3]]); 7] = [
        (0, &[]),
        (255, &[]),
        (1, &[[0, 4, 8]]),
        (254, &[[0, 8, 4]]),
        (3, &[[4, 8, 9], [4, 9, 5]]),
        (9, &[[0, 4, 8], [1, 5, 11]]),
        (246, &[[8, 4, 1], [8, 1, 11], [8, 11, 5], [8, 5, 0]]),
    ];
    for (case, triangles) in figures {
        assert_eq!(cube::triangles(case), triangles, "case {case}");
    }
}

#[test]
fn figure_of_document_01() {
    assert_eq!(
        cube::triangles_of_document_01(246),
        [[0, 8, 4], [0, 4, 1], [0, 1, 11], [0, 11, 5]]
    );
}

#[test]
fn counts() {
    let mut cases_with = [0; 6];
    for case in 0..=u8::MAX {
        cases_with[usize::from(cube::count(case))] += 1;
    }
    assert_eq!(cases_with, [2, 16, 50, 80, 76, 32]);
    let all: u32 = (0..=u8::MAX).map(|case| u32::from(cube::count(case))).sum();
    assert_eq!(all, 820);
}

#[test]
fn answer_is_the_triangles_and_zeros() {
    for case in 0..=u8::MAX {
        let triangles = cube::triangles(case);
        let answer = cube::answer(case);
        assert_eq!(usize::from(cube::count(case)), triangles.len());
        assert_eq!(answer[..triangles.len()], triangles[..]);
        assert!(answer[triangles.len()..].iter().all(|t| *t == [0; 3]));
    }
}

#[test]
fn corners_and_edges_are_numbered_once() {
    for corner in 0..cube::CORNERS {
        assert_eq!(cube::corner_number(cube::corner_place(corner)), corner);
    }
    let mut pairs = BTreeSet::new();
    for edge in 0..cube::EDGES {
        let (axis, low, high) = cube::edge_ends(edge);
        assert_eq!(low ^ high, 1 << axis);
        assert!(low < high);
        pairs.insert((low, high));
    }
    assert_eq!(pairs.len(), 12);
    assert_eq!(cube::edge_ends(2), (0, 4, 5));
    assert_eq!(cube::edge_ends(5), (1, 1, 3));
    assert_eq!(cube::edge_ends(10), (2, 2, 6));
}

/// The polygon of each face runs right-handed about the outward normal.
#[test]
fn faces_run_counterclockwise_seen_from_outside() {
    let faces = cube::faces();
    assert_eq!(faces.len(), 6);
    for face in &faces {
        let places = face
            .corners
            .map(|corner| cube::corner_place(corner).map(i32::from));
        let mut doubled_area = [0; 3];
        for i in 0..4 {
            let next = (i + 1) % 4;
            assert_eq!(places[i][face.axis], i32::from(face.side));
            assert_eq!(
                (face.corners[i] ^ face.corners[next]).count_ones(),
                1,
                "one step"
            );
            let part = cross(places[i], places[next]);
            doubled_area = [0, 1, 2].map(|axis| doubled_area[axis] + part[axis]);
        }
        assert_eq!(doubled_area, face.normal().map(|n| 2 * n));
        let away = if face.side == 1 { 1 } else { -1 };
        assert_eq!(face.normal()[face.axis], away);
    }
    let different: BTreeSet<_> = faces.iter().map(|face| (face.axis, face.side)).collect();
    assert_eq!(different.len(), 6);
}

#[test]
fn each_crossed_edge_starts_one_segment_and_ends_one() {
    for case in 0..=u8::MAX {
        let segments = cube::segments(case);
        for edge in 0..cube::EDGES {
            let (_, low, high) = cube::edge_ends(edge);
            let differ = (case >> low) & 1 != (case >> high) & 1;
            assert_eq!(cube::edge_crossed(case, edge), differ);
            let starts = segments.iter().filter(|(from, _)| *from == edge).count();
            let ends = segments.iter().filter(|(_, to)| *to == edge).count();
            let wanted = usize::from(differ);
            assert_eq!((starts, ends), (wanted, wanted), "case {case} edge {edge}");
        }
    }
}

/// "So on a face with two above corners at a diagonal, each is cut off alone."
#[test]
fn a_segment_has_the_above_corners_of_one_run_on_its_right() {
    for case in 0..=u8::MAX {
        for face in cube::faces() {
            let above: Vec<u8> = face
                .corners
                .into_iter()
                .filter(|&corner| case & (1 << corner) != 0)
                .collect();
            let segments = face.segments(case);
            let diagonal = above.len() == 2 && (above[0] ^ above[1]).count_ones() == 2;
            let wanted = match above.len() {
                0 | 4 => 0,
                2 if diagonal => 2,
                _ => 1,
            };
            assert_eq!(segments.len(), wanted);
            for (from, to) in segments {
                let along = minus(middle(to), middle(from));
                let right: Vec<u8> = face
                    .corners
                    .into_iter()
                    .filter(|&corner| {
                        let place = cube::corner_place(corner).map(|c| 2 * i32::from(c));
                        let turn = cross(along, minus(place, middle(from)));
                        turn[face.axis] * face.normal()[face.axis] < 0
                    })
                    .collect();
                if diagonal {
                    assert_eq!(right.len(), 1);
                    assert!(above.contains(&right[0]));
                } else {
                    assert_eq!(right, above);
                }
            }
        }
    }
}

/// Two neighbouring cubes cut their common face the same way: the segments of
/// one are those of the other, reversed.
#[test]
fn neighbours_cut_their_common_face_alike() {
    let faces = cube::faces();
    let face_at = |axis, side| {
        faces
            .iter()
            .find(|face| face.axis == axis && face.side == side)
            .unwrap()
    };
    let mut met = 0;
    for axis in 0..3_usize {
        let step = 1 << axis;
        let upper: Vec<u8> = (0..8).filter(|corner| corner & step != 0).collect();
        for one in 0..=u8::MAX {
            let ours = face_at(axis, 1).segments(one);
            let moved: BTreeSet<(u8, u8)> = ours
                .iter()
                .map(|&(from, to)| {
                    let down = |edge| {
                        let (along, low, _) = cube::edge_ends(edge);
                        cube::edge_number(along, cube::corner_place(low & !step))
                    };
                    (down(to), down(from))
                })
                .collect();
            for other in 0..=u8::MAX {
                let fits = upper
                    .iter()
                    .all(|corner| (one >> corner) & 1 == (other >> (corner & !step)) & 1);
                if !fits {
                    continue;
                }
                met += 1;
                let theirs = face_at(axis, 0).segments(other);
                assert_eq!(moved, theirs.into_iter().collect(), "{one} and {other}");
            }
        }
    }
    assert_eq!(met, 3 * 256 * 16);
}

/// The sides of triangles as they run.
fn sides(triangles: &[[u8; 3]]) -> Vec<(u8, u8)> {
    triangles
        .iter()
        .flat_map(|&[a, b, c]| [(a, b), (b, c), (c, a)])
        .collect()
}

/// Each triangle side is a segment, or a diagonal that its loop runs both ways.
#[test]
fn the_sides_of_the_triangles_balance_to_the_segments() {
    for case in 0..=u8::MAX {
        let mut balance = [[0; 12]; 12];
        for (from, to) in sides(&cube::triangles(case)) {
            balance[usize::from(from)][usize::from(to)] += 1;
            balance[usize::from(to)][usize::from(from)] -= 1;
        }
        for (from, to) in cube::segments(case) {
            balance[usize::from(from)][usize::from(to)] -= 1;
            balance[usize::from(to)][usize::from(from)] += 1;
        }
        assert_eq!(balance, [[0; 12]; 12], "case {case}");
    }
}

#[test]
fn loops_start_at_their_lowest_edge_and_come_in_its_order() {
    for case in 0..=u8::MAX {
        let loops = cube::loops(case);
        let mut before = None;
        for ring in &loops {
            assert_eq!(ring.iter().min(), ring.first());
            assert!(ring.len() >= 3);
            assert!(before < ring.first().copied());
            before = ring.first().copied();
        }
        let edges: BTreeSet<u8> = loops.concat().into_iter().collect();
        let crossed: BTreeSet<u8> = (0..12).filter(|&e| cube::edge_crossed(case, e)).collect();
        assert_eq!(edges, crossed);
        assert_eq!(loops.concat().len(), edges.len());
    }
}

/// Two cube edges lie in one face when their middles have a coordinate of 0 or
/// of 2, both the same.
fn in_one_face(one: u8, other: u8) -> bool {
    let (one, other) = (middle(one), middle(other));
    (0..3).any(|axis| one[axis] == other[axis] && one[axis] != 1)
}

#[test]
fn edges_of_one_face_are_told_by_their_middles() {
    for one in 0..cube::EDGES {
        for other in 0..cube::EDGES {
            let together = in_one_face(one, other);
            assert_eq!(cube::in_one_face(one, other), together, "{one} and {other}");
        }
    }
    assert!(in_one_face(0, 4) && !in_one_face(0, 3) && !in_one_face(0, 11));
}

/// Each loop with the edges at which its fan may start, by a second way: inner
/// diagonals lead from the start to all edges but those beside it in the loop.
fn loops_and_starts() -> Vec<(Vec<u8>, Vec<u8>)> {
    let may_start = |ring: &[u8], start: u8| {
        let at = ring.iter().position(|&edge| edge == start).unwrap();
        let beside = [at + 1, at + ring.len() - 1].map(|next| ring[next % ring.len()]);
        ring.iter()
            .filter(|&&edge| edge != start && !beside.contains(&edge))
            .all(|&edge| !in_one_face(start, edge))
    };
    (0..=u8::MAX)
        .flat_map(cube::loops)
        .map(|ring| {
            let mut starts = ring.clone();
            starts.retain(|&start| may_start(&ring, start));
            starts.sort_unstable();
            (ring, starts)
        })
        .collect()
}

#[test]
fn every_loop_has_a_start_and_runs_on_from_the_lowest() {
    for (ring, starts) in loops_and_starts() {
        let runs = cube::runs_off_the_faces(&ring);
        let found: Vec<u8> = runs.iter().map(|run| run[0]).collect();
        assert_eq!(found, starts, "loop {ring:?}");
        let run = cube::from_its_start(&ring);
        assert_eq!(run[0], starts[0], "loop {ring:?}");
        let next = |edges: &[u8], edge| {
            let at = edges.iter().position(|&e| e == edge).unwrap();
            edges[(at + 1) % edges.len()]
        };
        assert_eq!(run.len(), ring.len());
        for &edge in &ring {
            assert_eq!(next(&run, edge), next(&ring, edge), "loop {ring:?}");
        }
    }
}

/// How many loops there are of each length and with each number of starts.
#[test]
fn loops_by_length_and_starts() {
    let mut classes = BTreeMap::new();
    for (ring, starts) in loops_and_starts() {
        *classes.entry((ring.len(), starts.len())).or_insert(0) += 1;
    }
    let wanted = [
        ((3, 3), 144),
        ((4, 4), 66),
        ((5, 5), 72),
        ((6, 2), 12),
        ((6, 6), 40),
        ((7, 3), 24),
    ];
    assert_eq!(classes, BTreeMap::from(wanted));
}

#[test]
fn eighteen_cases_differ_from_document_01_and_none_in_its_count() {
    let mut differing = Vec::new();
    for case in 0..=u8::MAX {
        let (new, old) = (cube::triangles(case), cube::triangles_of_document_01(case));
        assert_eq!(new.len(), old.len(), "case {case}");
        if new != old {
            differing.push(case);
        }
    }
    let wanted = [
        91, 94, 111, 118, 123, 159, 167, 173, 183, 185, 217, 218, 222, 229, 230, 237, 246, 249,
    ];
    assert_eq!(differing, wanted);
}

/// No side is run twice the same way, and one that lies in a cube face is a
/// segment of it; by document 01's fans case 246 has sides that are not.
#[test]
fn sides_come_once_and_those_in_a_face_are_its_segments() {
    let flat = |triangles: &[[u8; 3]], case| -> Vec<(u8, u8)> {
        let segments = cube::segments(case);
        let mut in_faces = sides(triangles);
        in_faces.retain(|side| in_one_face(side.0, side.1) && !segments.contains(side));
        in_faces
    };
    for case in 0..=u8::MAX {
        let triangles = cube::triangles(case);
        let all = sides(&triangles);
        let different: BTreeSet<_> = all.iter().collect();
        assert_eq!(different.len(), all.len(), "case {case}");
        assert_eq!(flat(&triangles, case), [], "case {case}");
    }
    let old = cube::triangles_of_document_01(246);
    assert_eq!(flat(&old, 246), [(4, 0), (0, 4), (1, 0), (0, 1)]);
}

/// "So the triangle's right-hand normal points from above to below": a corner
/// that is above alone lies behind its triangle, one below alone before it.
#[test]
fn triangles_look_from_above_to_below() {
    for corner in 0..8 {
        for (case, behind) in [(1_u8 << corner, true), (!(1_u8 << corner), false)] {
            let triangles = cube::triangles(case);
            assert_eq!(triangles.len(), 1);
            let [a, b, c] = triangles[0].map(middle);
            let normal = cross(minus(b, a), minus(c, a));
            let place = cube::corner_place(corner).map(|c| 2 * i32::from(c));
            let way = minus(place, a);
            let height: i32 = (0..3).map(|axis| normal[axis] * way[axis]).sum();
            assert_ne!(height, 0);
            assert_eq!(height < 0, behind);
        }
    }
}
