//! Areas and mean curvature.
//!
//! Whole numbers are i64 and u64; binary64 is f64. Each f64 operator below is
//! one operation rounded once, to the nearest with ties to even; nothing is
//! fused and nothing is reordered.

use crate::mesh;

/// Corner i's two companions: "With j the corner after i and k the one after j,
/// going round".
fn others(i: usize) -> (usize, usize) {
    ((i + 1) % 3, (i + 2) % 3)
}

fn minus(a: [i64; 3], b: [i64; 3]) -> [i64; 3] {
    [a[0] - b[0], a[1] - b[1], a[2] - b[2]]
}

fn dot(a: [i64; 3], b: [i64; 3]) -> i64 {
    a[0] * b[0] + a[1] * b[1] + a[2] * b[2]
}

fn cross(a: [i64; 3], b: [i64; 3]) -> [i64; 3] {
    [
        a[1] * b[2] - a[2] * b[1],
        a[2] * b[0] - a[0] * b[2],
        a[0] * b[1] - a[1] * b[0],
    ]
}

/// "s is the number with 2^58 ≤ N·4^s < 2^60, r the whole root of N·4^s rounded
/// down": (s, r) for 1 ≤ `n` < 2^60.
///
/// # Panics
///
/// If `n` is 0 or at least 2^60: no s fits.
pub fn root(n: u64) -> (u32, u64) {
    assert!((1..1 << 60).contains(&n), "no s fits {n}");
    let mut s = 0;
    let mut scaled = n;
    while scaled < 1 << 58 {
        s += 1;
        scaled *= 4;
    }
    // r is below 2^30; its bits are found from the highest down.
    let mut r = 0;
    for bit in (0..30).rev() {
        let longer = r | 1 << bit;
        if longer * longer <= scaled {
            r = longer;
        }
    }
    (s, r)
}

/// What one triangle with N above 0 gives, in binary64.
#[derive(Clone, Copy, PartialEq, Debug)]
pub struct Parts {
    /// The number with 2^58 ≤ N·4^s < 2^60.
    pub s: u32,
    /// D, "twice the area".
    pub doubled: f64,
    /// The cotangent at each corner.
    pub cot: [f64; 3],
    /// The share of each corner.
    pub shares: [f64; 3],
}

/// The parts of the triangle with these corners; "N = 0: the triangle gives
/// nothing."
///
/// Coordinates are at most 16,128. Then N is at most 3·16,128^4, which is below
/// 2^58.
pub fn triangle(corners: [[u32; 3]; 3]) -> Option<Parts> {
    let p = corners.map(|corner| corner.map(i64::from));
    // "d_i is the dot product of the two sides leaving corner i, L_i the
    // squared side opposite it, N the squared cross product of two sides."
    let d = [0, 1, 2].map(|i| {
        let (j, k) = others(i);
        dot(minus(p[j], p[i]), minus(p[k], p[i]))
    });
    let l = [0, 1, 2].map(|i| {
        let (j, k) = others(i);
        let side = minus(p[k], p[j]);
        dot(side, side)
    });
    let normal = cross(minus(p[1], p[0]), minus(p[2], p[0]));
    let n = dot(normal, normal) as u64;
    if n == 0 {
        return None;
    }
    // "D = r / 2^s": r has at most 30 bits and 2^s is a power of two, so both
    // conversions and the quotient are exact. Whether D is read as an exact
    // number or as a rounded one makes no difference.
    let (s, r) = root(n);
    let doubled = r as f64 / (1_u64 << s) as f64;
    // "From here binary64, each operation rounded once. cot_i = d_i / D." d_i
    // and L_i are below 2^31 in size, so their conversions are exact.
    let cot = d.map(|d_i| d_i as f64 / doubled);
    let shares = match d.iter().position(|&d_i| d_i < 0) {
        // "If no d is negative, the share of corner i is (L_j·cot_j +
        // L_k·cot_k) / 8, each product rounded, then the sum."
        None => [0, 1, 2].map(|i| {
            let (j, k) = others(i);
            let first = l[j] as f64 * cot[j];
            let second = l[k] as f64 * cot[k];
            (first + second) / 8.0
        }),
        // "If d_i is negative, corner i gets D/4 and the other two D/8."
        Some(i) => {
            let mut shares = [doubled / 8.0; 3];
            shares[i] = doubled / 4.0;
            shares
        }
    };
    Some(Parts {
        s,
        doubled,
        cot,
        shares,
    })
}

/// Areas and mean curvature vectors; returns the refusal number, 0 if granted.
///
/// "Result rooms are exactly V areas and 3V vector numbers." "Calls on a mesh:
/// 6, 7, 8, 9, [..] then 3". A refusal leaves both rooms as they were.
pub fn curvature(
    points: &[u32],
    triangles: &[u32],
    marks: &[u8],
    areas: &mut [f64],
    vectors: &mut [f64],
) -> u32 {
    let number = mesh::check(points, triangles, marks);
    if number != 0 {
        return number;
    }
    let point_count = marks.len();
    if areas.len() != point_count || vectors.len() != 3 * point_count {
        return 3;
    }
    // "Sums start at +0.0 and take triangles in list order, corners in order."
    areas.fill(0.0);
    vectors.fill(0.0);
    let places: Vec<[u32; 3]> = mesh::threes(points).collect();
    for named in mesh::threes(triangles) {
        let corners = named.map(|point| places[point as usize]);
        let Some(parts) = triangle(corners) else {
            continue;
        };
        let p = corners.map(|corner| corner.map(i64::from));
        for i in 0..3 {
            let (j, k) = others(i);
            let point = named[i] as usize;
            areas[point] += parts.shares[i];
            // "each coordinate of corner i's running vector first adds
            // cot_k·(p_i − p_j), then cot_j·(p_i − p_k)." The differences are
            // whole numbers below 2^15 in size, converted exactly.
            for axis in 0..3 {
                let running = &mut vectors[3 * point + axis];
                *running += parts.cot[k] * (p[i][axis] - p[j][axis]) as f64;
                *running += parts.cot[j] * (p[i][axis] - p[k][axis]) as f64;
            }
        }
    }
    for (point, &mark) in marks.iter().enumerate() {
        let vector = &mut vectors[3 * point..3 * point + 3];
        let area = areas[point];
        if mark == 1 || area == 0.0 {
            // "Vectors of open and flat points are stored as +0.0."
            vector.fill(0.0);
        } else {
            // "the running vector divided by four times the area"
            let divisor = 4.0 * area;
            for running in vector {
                *running /= divisor;
            }
        }
    }
    0
}

/// "A point's answer is one of three".
#[derive(Clone, Copy, PartialEq, Debug)]
pub enum Answer {
    /// "*open* with its area (mark 1)".
    Open(f64),
    /// "*flat* (area sum 0, mark 0)".
    Flat,
    /// "*bent*, with its area and a vector of three binary64 numbers".
    Bent(f64, [f64; 3]),
}

/// "One point's answer is read back from the marks and both rooms: mark 1 is
/// open, else an area of +0.0 or −0.0 is flat, else bent."
///
/// "Reading an answer back: 6 unless there are V areas and 3V numbers, 14, then
/// 9 for that point's mark." V is the length of the marks.
pub fn answer(marks: &[u8], areas: &[f64], vectors: &[f64], point: u32) -> Result<Answer, u32> {
    let point_count = marks.len();
    if areas.len() != point_count || vectors.len() != 3 * point_count {
        return Err(6);
    }
    let point = point as usize;
    if point >= point_count {
        return Err(14);
    }
    let area = areas[point];
    match marks[point] {
        0 if area == 0.0 => Ok(Answer::Flat),
        0 => Ok(Answer::Bent(
            area,
            [0, 1, 2].map(|axis| vectors[3 * point + axis]),
        )),
        1 => Ok(Answer::Open(area)),
        _ => Err(9),
    }
}
