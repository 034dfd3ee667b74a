//! One cube: corners, cube edges, the face rule, loops and fans, whose start is
//! the one of request (ii) of document 02.
//!
//! No table is written here: the cases are computed from the face rule, and the
//! faces are computed from the corner coordinates.

use std::sync::LazyLock;

/// The number of corners of a cube.
pub const CORNERS: u8 = 8;

/// The number of edges of a cube.
pub const EDGES: u8 = 12;

/// "Corner c = x + 2y + 4z with x, y, z in 0..1."
pub fn corner_number(place: [u8; 3]) -> u8 {
    place[0] + 2 * place[1] + 4 * place[2]
}

/// The coordinates x, y, z of corner `corner`.
pub fn corner_place(corner: u8) -> [u8; 3] {
    [corner & 1, (corner >> 1) & 1, (corner >> 2) & 1]
}

/// "Cube edges: along x number y + 2z; along y number 4 + x + 2z; along z
/// number 8 + x + 2y."
///
/// The coordinate of `place` along the edge does not matter.
pub fn edge_number(axis: usize, place: [u8; 3]) -> u8 {
    let [x, y, z] = place;
    match axis {
        0 => y + 2 * z,
        1 => 4 + x + 2 * z,
        _ => 8 + x + 2 * y,
    }
}

/// The axis of a cube edge, and its lower and its upper corner.
pub fn edge_ends(edge: u8) -> (usize, u8, u8) {
    for axis in 0..3 {
        for corner in 0..CORNERS {
            let low = corner_place(corner);
            if low[axis] == 0 && edge_number(axis, low) == edge {
                let mut high = low;
                high[axis] = 1;
                return (axis, corner, corner_number(high));
            }
        }
    }
    panic!("a cube has no edge {edge}");
}

/// The number of the edge between two corners that differ in one coordinate.
fn edge_between(one: u8, other: u8) -> u8 {
    let (from, to) = (corner_place(one), corner_place(other));
    let axis = (0..3)
        .find(|&axis| from[axis] != to[axis])
        .expect("two ends of an edge differ");
    edge_number(axis, from)
}

/// "The case number has bit c set when corner c is above."
pub fn corner_above(case: u8, corner: u8) -> bool {
    case & (1 << corner) != 0
}

/// "An edge is crossed when its two corners differ."
pub fn edge_crossed(case: u8, edge: u8) -> bool {
    let (_, low, high) = edge_ends(edge);
    corner_above(case, low) != corner_above(case, high)
}

/// One of the six faces of a cube.
#[derive(Clone, Copy, PartialEq, Eq, Debug)]
pub struct Face {
    /// The axis across the face.
    pub axis: usize,
    /// The coordinate of the face along that axis, 0 or 1.
    pub side: u8,
    /// The four corners, "counterclockwise as seen from outside the cube",
    /// starting at the lowest.
    pub corners: [u8; 4],
}

impl Face {
    /// The face at `side` of `axis`, its corners put in order by geometry.
    fn at(axis: usize, side: u8) -> Face {
        let normal = outward_normal(axis, side);
        let on_face: Vec<u8> = (0..CORNERS)
            .filter(|&corner| corner_place(corner)[axis] == side)
            .collect();
        let mut corners = [on_face[0]; 4];
        for i in 1..4 {
            let here = from_middle(axis, corners[i - 1]);
            corners[i] = *on_face
                .iter()
                .find(|&&corner| dot(cross(here, from_middle(axis, corner)), normal) > 0)
                .expect("a corner of a face has a next one");
        }
        Face {
            axis,
            side,
            corners,
        }
    }

    /// The unit vector that points out of the cube through this face.
    pub fn normal(&self) -> [i32; 3] {
        outward_normal(self.axis, self.side)
    }

    /// "For each run that isn't the whole face, one segment goes from the edge
    /// by which we enter the run to the edge by which we leave it."
    ///
    /// A run that is not the whole face starts at an above corner that follows
    /// a below corner.
    pub fn segments(&self, case: u8) -> Vec<(u8, u8)> {
        let corner = |i: usize| self.corners[i % 4];
        let above = |i: usize| corner_above(case, corner(i));
        let mut segments = Vec::new();
        for before in 0..4 {
            let first = before + 1;
            if above(before) || !above(first) {
                continue;
            }
            let mut last = first;
            while above(last + 1) {
                last += 1;
            }
            segments.push((
                edge_between(corner(before), corner(first)),
                edge_between(corner(last), corner(last + 1)),
            ));
        }
        segments
    }
}

/// The outward normal of the face at `side` of `axis`.
fn outward_normal(axis: usize, side: u8) -> [i32; 3] {
    let mut normal = [0; 3];
    normal[axis] = if side == 1 { 1 } else { -1 };
    normal
}

/// Twice the way from the middle of the face across `axis` to `corner`.
fn from_middle(axis: usize, corner: u8) -> [i32; 3] {
    let mut way = corner_place(corner).map(|coordinate| 2 * i32::from(coordinate) - 1);
    way[axis] = 0;
    way
}

fn cross(a: [i32; 3], b: [i32; 3]) -> [i32; 3] {
    [
        a[1] * b[2] - a[2] * b[1],
        a[2] * b[0] - a[0] * b[2],
        a[0] * b[1] - a[1] * b[0],
    ]
}

fn dot(a: [i32; 3], b: [i32; 3]) -> i32 {
    a[0] * b[0] + a[1] * b[1] + a[2] * b[2]
}

/// The six faces of the cube.
pub fn faces() -> Vec<Face> {
    let mut faces = Vec::new();
    for axis in 0..3 {
        for side in 0..2 {
            faces.push(Face::at(axis, side));
        }
    }
    faces
}

/// The segments of all six faces, each from the edge it starts at to the edge
/// it ends at.
pub fn segments(case: u8) -> Vec<(u8, u8)> {
    faces()
        .iter()
        .flat_map(|face| face.segments(case))
        .collect()
}

/// "Each crossed edge ends one segment and starts another, so segments close
/// into loops. Loops are taken in order of their lowest edge."
///
/// Each loop starts at its lowest edge.
pub fn loops(case: u8) -> Vec<Vec<u8>> {
    let mut next = [None; EDGES as usize];
    for (from, to) in segments(case) {
        next[usize::from(from)] = Some(to);
    }
    let mut loops = Vec::new();
    for lowest in 0..EDGES {
        let mut ring = Vec::new();
        let mut edge = lowest;
        while let Some(following) = next[usize::from(edge)].take() {
            ring.push(edge);
            edge = following;
        }
        if !ring.is_empty() {
            loops.push(ring);
        }
    }
    loops
}

/// The fan of a loop e0, e1, e2, e3, .. as it runs from its start:
/// "(e0,e1,e2), (e0,e2,e3) and so on."
fn fan(ring: &[u8]) -> Vec<[u8; 3]> {
    ring[1..]
        .windows(2)
        .map(|pair| [ring[0], pair[0], pair[1]])
        .collect()
}

/// Whether two edges are "edges of one cube face": their four ends have one
/// coordinate in common.
pub fn in_one_face(one: u8, other: u8) -> bool {
    let ends = [one, other].map(|edge| {
        let (_, low, high) = edge_ends(edge);
        [corner_place(low), corner_place(high)]
    });
    let first = ends[0][0];
    (0..3).any(|axis| ends.iter().flatten().all(|end| end[axis] == first[axis]))
}

/// Whether an inner diagonal of the fan of this loop "joins two edges of one
/// cube face".
///
/// The inner diagonals of a loop e0, e1, .. ek lead from e0 to e2 and so on up
/// to e(k−1); a loop of three has none.
fn has_diagonal_in_a_face(ring: &[u8]) -> bool {
    ring[2..ring.len() - 1]
        .iter()
        .any(|&end| in_one_face(ring[0], end))
}

/// A loop from each of its edges "for which no inner diagonal joins two edges
/// of one cube face", the lowest of these edges first.
pub fn runs_off_the_faces(ring: &[u8]) -> Vec<Vec<u8>> {
    let mut runs: Vec<Vec<u8>> = (0..ring.len())
        .map(|start| [&ring[start..], &ring[..start]].concat())
        .filter(|run| !has_diagonal_in_a_face(run))
        .collect();
    runs.sort_by_key(|run| run[0]);
    runs
}

/// "The fan shall start at the lowest edge of its loop for which no inner
/// diagonal joins two edges of one cube face."
pub fn from_its_start(ring: &[u8]) -> Vec<u8> {
    runs_off_the_faces(ring)
        .into_iter()
        .next()
        .expect("every loop has such an edge")
}

/// The triangles of a case: the fans of its loops, each from its start.
pub fn triangles(case: u8) -> Vec<[u8; 3]> {
    loops(case)
        .iter()
        .flat_map(|ring| fan(&from_its_start(ring)))
        .collect()
}

/// The triangles of a case by document 01 alone: "A loop e0, e1, e2, e3, ..
/// that starts at its lowest edge gives the fan (e0,e1,e2), (e0,e2,e3) and so
/// on."
pub fn triangles_of_document_01(case: u8) -> Vec<[u8; 3]> {
    loops(case).iter().flat_map(|ring| fan(ring)).collect()
}

/// The triangles of every case, computed once: those of case c stand at c.
pub static CASES: LazyLock<Vec<Vec<[u8; 3]>>> =
    LazyLock::new(|| (0..=u8::MAX).map(triangles).collect());

/// The triangles of every case by document 01 alone, computed once.
pub static CASES_OF_DOCUMENT_01: LazyLock<Vec<Vec<[u8; 3]>>> =
    LazyLock::new(|| (0..=u8::MAX).map(triangles_of_document_01).collect());

/// The number of triangles of a case.
pub fn count(case: u8) -> u8 {
    triangles(case).len() as u8
}

/// "The answer for a case is a count and five triangles of three edge numbers
/// each, unused ones zero." This is the five triangles; [`count`] is the count.
pub fn answer(case: u8) -> [[u8; 3]; 5] {
    let mut answer = [[0; 3]; 5];
    for (slot, triangle) in answer.iter_mut().zip(triangles(case)) {
        *slot = triangle;
    }
    answer
}
