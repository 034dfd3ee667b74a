//! Smoothing, and showing one point.

use crate::mesh;

/// "the value ((256 − w)·d·p + w·S) / (256·d) to the nearest, halves up" for
/// one coordinate `p`, `d` ≥ 1 neighbours with sum `sum`, and the weight.
pub fn smoothed_coordinate(p: u32, d: u32, sum: u64, weight: u32) -> u32 {
    let (p, d, weight) = (u64::from(p), u64::from(d), u64::from(weight));
    let numerator = (256 - weight) * d * p + weight * sum;
    let denominator = 256 * d;
    let nearest = (2 * numerator + denominator) / (2 * denominator);
    u32::try_from(nearest).expect("a mean of coordinates is no larger than they are")
}

/// One round: "All points of a round read the old places. Marked points and
/// those with no neighbour stay."
fn round(old: &[u32], neighbours: &[Vec<u32>], marks: &[u8], weight: u32) -> Vec<u32> {
    let mut new = old.to_vec();
    for (point, around) in neighbours.iter().enumerate() {
        if marks[point] != 0 || around.is_empty() {
            continue;
        }
        for axis in 0..3 {
            let sum = around
                .iter()
                .map(|&neighbour| u64::from(old[3 * neighbour as usize + axis]))
                .sum();
            let at = 3 * point + axis;
            new[at] = smoothed_coordinate(old[at], around.len() as u32, sum, weight);
        }
    }
    new
}

/// Smooths a mesh; returns the refusal number, 0 if granted.
///
/// "Smoothed points go to a second lent list; the first isn't written. [..]
/// Work room: 6T + 5V + 1 numbers." "Calls on a mesh: 6, 7, 8, 9, then 10 for
/// smoothing, then 3". No refusal comes after 3, so each leaves both rooms as
/// they were; a granted call leaves the work room zero.
pub fn smooth(
    points: &[u32],
    triangles: &[u32],
    marks: &[u8],
    rounds: u32,
    weight: u32,
    smoothed: &mut [u32],
    work: &mut [u32],
) -> u32 {
    let number = mesh::check(points, triangles, marks);
    if number != 0 {
        return number;
    }
    // "rounds k, weight w: 0 to 100, 0 to 256"
    if rounds > 100 || weight > 256 {
        return 10;
    }
    // "a work or result room of fixed length has another length"; "the second
    // point list (3V)" is a room of fixed length.
    let (point_count, triangle_count) = (marks.len(), triangles.len() / 3);
    if smoothed.len() != 3 * point_count || work.len() != 6 * triangle_count + 5 * point_count + 1 {
        return 3;
    }
    let neighbours = mesh::neighbours(point_count, triangles);
    let mut places = points.to_vec();
    for _ in 0..rounds {
        places = round(&places, &neighbours, marks, weight);
    }
    smoothed.copy_from_slice(&places);
    work.fill(0);
    0
}

/// "On request one point is shown as a part of either list, the raw or the
/// smoothed, as the caller says": `second` asks for the smoothed list.
///
/// "Showing one point: 6 unless both lists have one length, a multiple of three
/// (V is its third), then 14; the number goes into a lent number, 0 if granted,
/// and a refused call shows an empty part."
pub fn show<'a>(
    raw: &'a [u32],
    smoothed: &'a [u32],
    second: bool,
    point: u32,
    number: &mut u32,
) -> &'a [u32] {
    if raw.len() != smoothed.len() || !raw.len().is_multiple_of(3) {
        *number = 6;
        return &[];
    }
    let point = point as usize;
    if point >= raw.len() / 3 {
        *number = 14;
        return &[];
    }
    *number = 0;
    let list = if second { smoothed } else { raw };
    &list[3 * point..3 * point + 3]
}
