//! Where the voids of a casting are, for castings with a known number of them.
#![allow(dead_code)]

/// Samples a side of a casting.
pub const SIDE: usize = 64;

/// So many cells of a lattice that keeps a margin to the outer faces: how long a cell is, and the middle of each.
pub fn lattice(cells: usize, margin: f64) -> (f64, impl Iterator<Item = [f64; 3]>) {
    let per_side = (1..).find(|n| n * n * n >= cells).unwrap();
    let length = (SIDE as f64 - 2.0 * margin) / per_side as f64;
    let middles = (0..cells).map(move |cell| {
        [
            cell % per_side,
            cell / per_side % per_side,
            cell / (per_side * per_side),
        ]
        .map(|c| margin + length * (c as f64 + 0.5))
    });
    (length, middles)
}

/// The samples in an ellipsoid, x fastest, given its middle and its half axes.
pub fn ellipsoid(middle: [f64; 3], half: [f64; 3]) -> Vec<usize> {
    let [xs, ys, zs] = [0, 1, 2].map(|axis| {
        let (low, high) = (middle[axis] - half[axis], middle[axis] + half[axis]);
        low as usize..=high as usize
    });
    zs.flat_map(|z| ys.clone().map(move |y| (y, z)))
        .flat_map(|(y, z)| xs.clone().map(move |x| [x, y, z]))
        .filter(|at| {
            let distance: f64 = (0..3)
                .map(|axis| ((at[axis] as f64 - middle[axis]) / half[axis]).powi(2))
                .sum();
            distance < 1.0
        })
        .map(|[x, y, z]| x + SIDE * (y + SIDE * z))
        .collect()
}
