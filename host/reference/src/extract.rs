//! The extractor: checks, counts and rooms.

use crate::cube;
use crate::grid::{are_sides, Grid, Point};
use crate::mesh::{MOST_POINTS, MOST_TRIANGLES};

/// What the extractor returns.
#[derive(Clone, Copy, PartialEq, Eq, Debug)]
pub struct Extracted {
    /// The refusal number, 0 if granted.
    pub number: u32,
    /// The number of points, 0 if refused.
    pub points: u32,
    /// The number of triangles, 0 if refused.
    pub triangles: u32,
}

/// "A refusal gives the number and zero counts".
pub(crate) fn refused(number: u32) -> Extracted {
    Extracted {
        number,
        points: 0,
        triangles: 0,
    }
}

/// Refusals 1 and 2, in this order; 0 if there is none.
pub(crate) fn check_samples(sides: [u32; 3], samples: usize) -> u32 {
    // "a side is below 2 or above 64"
    if !are_sides(sides) {
        return 1;
    }
    // Each side is at most 64 here, so the product is small.
    let sample_count = sides.iter().product::<u32>() as usize;
    // "samples are not nx·ny·nz"
    if samples != sample_count {
        return 2;
    }
    0
}

/// Refusals 1, 2 and 3, in this order; 0 if there is none.
pub(crate) fn check(sides: [u32; 3], samples: usize, work: usize) -> u32 {
    let number = check_samples(sides, samples);
    if number != 0 {
        return number;
    }
    // "a work or result room of fixed length has another length"
    if work != 3 * samples {
        return 3;
    }
    0
}

/// "the least of the point, edge and mark rooms"; "a room for points or
/// triangles counts its whole threes".
pub(crate) fn point_room(points: &[u32], edges: &[u32], marks: &[u8]) -> usize {
    (points.len() / 3).min(edges.len()).min(marks.len())
}

/// "a room for points or triangles counts its whole threes".
pub(crate) fn triangle_room(triangles: &[u32]) -> usize {
    triangles.len() / 3
}

/// Puts points in front of their three rooms; the rest of each room stays.
pub(crate) fn put_points(list: &[Point], points: &mut [u32], edges: &mut [u32], marks: &mut [u8]) {
    for (i, point) in list.iter().enumerate() {
        points[3 * i..3 * i + 3].copy_from_slice(&point.place);
        edges[i] = point.edge;
        marks[i] = point.mark;
    }
}

/// Puts triangles in front of their room; the rest of it stays.
pub(crate) fn put_triangles(list: &[[u32; 3]], triangles: &mut [u32]) {
    for (i, triangle) in list.iter().enumerate() {
        triangles[3 * i..3 * i + 3].copy_from_slice(triangle);
    }
}

/// Puts a mesh in front of its rooms; the rest of each room stays. Refusals 4
/// and 5, in this order; they leave the rooms.
pub(crate) fn put_mesh(
    point_list: &[Point],
    triangle_list: &[[u32; 3]],
    points: &mut [u32],
    edges: &mut [u32],
    marks: &mut [u8],
    triangles: &mut [u32],
) -> Extracted {
    // "points exceed 250,000 or the least of the point, edge and mark rooms"
    if point_list.len() > MOST_POINTS.min(point_room(points, edges, marks)) {
        return refused(4);
    }
    // "triangles exceed 500,000 or their room"
    if triangle_list.len() > MOST_TRIANGLES.min(triangle_room(triangles)) {
        return refused(5);
    }
    put_points(point_list, points, edges, marks);
    put_triangles(triangle_list, triangles);
    Extracted {
        number: 0,
        points: point_list.len() as u32,
        triangles: triangle_list.len() as u32,
    }
}

/// "The extractor fills points (three u32 each), edge numbers, marks and
/// triangles from the front of the lent rooms; the rest of each room stays. Its
/// work room has exactly 3·nx·ny·nz numbers."
///
/// "Extractor: 1, 2, 3, 4, 5." "Lent rooms stay, but a refusal that comes after
/// 3 in its call's order leaves the work room zero. So does a granted call. A
/// room for points or triangles counts its whole threes."
#[allow(clippy::too_many_arguments)]
pub fn extract(
    nx: u32,
    ny: u32,
    nz: u32,
    grey: u16,
    samples: &[u16],
    points: &mut [u32],
    edges: &mut [u32],
    marks: &mut [u8],
    triangles: &mut [u32],
    work: &mut [u32],
) -> Extracted {
    let sides = [nx, ny, nz];
    let number = check(sides, samples.len(), work.len());
    if number != 0 {
        return refused(number);
    }
    work.fill(0);

    let grid = Grid::whole(sides, grey, samples);
    let point_list = grid.points();
    let triangle_list = grid.triangles(&point_list, &cube::CASES);
    put_mesh(&point_list, &triangle_list, points, edges, marks, triangles)
}

/// The points and the triangles of a grid that is not refused, with document
/// 01's fans, to compare with.
pub fn mesh_of_document_01(
    sides: [u32; 3],
    grey: u16,
    samples: &[u16],
) -> (Vec<Point>, Vec<[u32; 3]>) {
    let grid = Grid::whole(sides, grey, samples);
    let points = grid.points();
    let triangles = grid.triangles(&points, &cube::CASES_OF_DOCUMENT_01);
    (points, triangles)
}
