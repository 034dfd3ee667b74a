//! What every call on a mesh shares: the checks, the points, the neighbours.

/// "points V, triangles T: at most 250,000 and 500,000": the points.
pub const MOST_POINTS: usize = 250_000;

/// "points V, triangles T: at most 250,000 and 500,000": the triangles.
pub const MOST_TRIANGLES: usize = 500_000;

/// "coordinate, in 1/256 of a voxel: 0 to 16,128".
pub const MOST_COORDINATE: u32 = 16_128;

/// "Calls on a mesh: 6, 7, 8, 9". 0 if the mesh passes all four.
///
/// "Any caller's mesh is taken that passes the checks: V is the length of the
/// marks." Each check runs over the whole mesh before the next one starts.
pub fn check(points: &[u32], triangles: &[u32], marks: &[u8]) -> u32 {
    let point_count = marks.len();
    // "mesh lengths don't fit (points not 3V, triangles not in threes) or
    // exceed the bounds"
    if point_count > MOST_POINTS
        || points.len() != 3 * point_count
        || !triangles.len().is_multiple_of(3)
        || triangles.len() / 3 > MOST_TRIANGLES
    {
        return 6;
    }
    // "a triangle names a point at or above V, or one point twice"
    let wrong = |[a, b, c]: [u32; 3]| {
        [a, b, c].iter().any(|&p| p as usize >= point_count) || a == b || b == c || c == a
    };
    if threes(triangles).any(wrong) {
        return 7;
    }
    // "a coordinate is over 16,128"
    if points
        .iter()
        .any(|&coordinate| coordinate > MOST_COORDINATE)
    {
        return 8;
    }
    // "a mark is over 1"
    if marks.iter().any(|&mark| mark > 1) {
        return 9;
    }
    0
}

/// The whole threes of a list, in order.
pub fn threes(list: &[u32]) -> impl Iterator<Item = [u32; 3]> + '_ {
    list.chunks_exact(3)
        .map(|three| [three[0], three[1], three[2]])
}

/// "Neighbours of a point are the different points that share a triangle side
/// with it": for each of the `point_count` points its neighbours, each once, in
/// rising order.
///
/// The triangles name only points below `point_count`.
pub fn neighbours(point_count: usize, triangles: &[u32]) -> Vec<Vec<u32>> {
    let mut neighbours = vec![Vec::new(); point_count];
    for [a, b, c] in threes(triangles) {
        for (from, to) in [(a, b), (b, c), (c, a)] {
            neighbours[from as usize].push(to);
            neighbours[to as usize].push(from);
        }
    }
    for list in &mut neighbours {
        list.sort_unstable();
        list.dedup();
    }
    neighbours
}
