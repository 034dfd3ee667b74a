//! Demand 3 counted by brute force on extracted meshes, raw and smoothed: each has half edges, and between two points that lie on no common outer face each
//! half edge has its twin. Beyond demand 3, those between two points of one outer face have none, and the triangles of a point follow one another round it.

#[path = "tools/half_edges.rs"]
mod half_edges;
mod tools;

use half_edges::{HalfEdges, Twice};
use tools::{surface_of_document_01, Seed};
use viewer::Surface;

/// The outer faces that a grid edge lies on, a bit each: across x the first and the last, then across y, then across z.
fn outer_faces(sides: [u32; 3], edge: u32) -> u8 {
    let [nx, ny, _] = sides;
    let sample = edge / 3;
    let place = [sample % nx, sample / nx % ny, sample / (nx * ny)];
    let mut faces = 0;
    for axis in 0..3 {
        if edge as usize % 3 == axis {
            continue;
        }
        if place[axis] == 0 {
            faces |= 1 << (2 * axis);
        }
        if place[axis] + 1 == sides[axis] {
            faces |= 2 << (2 * axis);
        }
    }
    faces
}

/// A half edge of a surface: the points that it runs from and to, whether they lie on a common outer face, and whether it has a twin.
#[derive(Clone, Copy, PartialEq, Eq, Debug)]
struct Side {
    points: (u32, u32),
    outer: bool,
    twin: bool,
}

fn sides_of(sides: [u32; 3], surface: &Surface, half_edges: &HalfEdges) -> Vec<Side> {
    let faces: Vec<u8> = surface
        .edges
        .iter()
        .map(|&edge| outer_faces(sides, edge))
        .collect();
    let side = |(points, twin): ((u32, u32), Option<usize>)| Side {
        points,
        outer: faces[points.0 as usize] & faces[points.1 as usize] != 0,
        twin: twin.is_some(),
    };
    half_edges.all().map(side).collect()
}

/// The half edges off the outer faces that have no twin.
fn slits(sides: [u32; 3], surface: &Surface) -> Result<Vec<(u32, u32)>, Twice> {
    let all = sides_of(sides, surface, &HalfEdges::of(&surface.triangles)?);
    let slit = all.iter().filter(|side| !side.outer && !side.twin);
    Ok(slit.map(|side| side.points).collect())
}

/// The surface of a grid, raw and smoothed, closes: off the outer faces every half edge has its twin. On them none has one. Those that leave a point follow one
/// another.
fn closes(sides: [u32; 3], grey: u16, samples: &[u16]) -> Surface {
    let at = format!("sides {sides:?}, grey value {grey}");
    let raw = Surface::extract(sides, grey, samples).expect(&at);
    for (&edge, &mark) in raw.edges.iter().zip(&raw.marks) {
        assert_eq!(mark, u8::from(outer_faces(sides, edge) != 0));
    }
    for t in raw.triangles.chunks_exact(3) {
        assert!(t[0] != t[1] && t[1] != t[2] && t[2] != t[0]);
        assert!(t.iter().all(|&point| (point as usize) < raw.edges.len()));
    }
    for surface in [&raw, &raw.smooth(2, 100).expect(&at)] {
        let half_edges = HalfEdges::of(&surface.triangles).expect(&at);
        for side in sides_of(sides, surface, &half_edges) {
            assert_eq!(side.twin, !side.outer, "{side:?}, {at}");
        }
        let turns = half_edges.turns(surface.edges.len());
        assert!(turns.iter().all(|&turns| turns == 1), "{at}");
    }
    raw
}

fn count(sides: [u32; 3]) -> usize {
    sides.iter().map(|&side| side as usize).product()
}

/// A sample above for each bit that is set, and one below for each that is not.
fn bits(corners: u64, sides: [u32; 3]) -> Vec<u16> {
    (0..count(sides))
        .map(|s| if corners >> s & 1 == 1 { 100 } else { 0 })
        .collect()
}

/// The same samples with one more layer of a value all round.
fn wrapped(sides: [u32; 3], samples: &[u16], value: u16) -> ([u32; 3], Vec<u16>) {
    let outer = sides.map(|side| side + 2);
    let mut all = vec![value; count(outer)];
    for (s, &sample) in samples.iter().enumerate() {
        let s = s as u32;
        let x = s % sides[0] + 1;
        let y = s / sides[0] % sides[1] + 1;
        let z = s / (sides[0] * sides[1]) + 1;
        all[(x + outer[0] * (y + outer[1] * z)) as usize] = sample;
    }
    (outer, all)
}

/// Alone, then with a layer of air or of metal all round: there no point lies on an outer face, and every half edge has to have its twin.
fn closes_in_its_place(corners: u64, sides: [u32; 3]) {
    let samples = bits(corners, sides);
    closes(sides, 50, &samples);
    let value = if corners.count_ones().is_multiple_of(2) {
        0
    } else {
        100
    };
    let (outer, all) = wrapped(sides, &samples, value);
    let surface = closes(outer, 50, &all);
    assert!(surface.marks.iter().all(|&mark| mark == 0));
}

/// Every two cases that agree on their common face, side by side along each axis.
#[test]
fn every_two_cubes_side_by_side() {
    for sides in [[3, 2, 2], [2, 3, 2], [2, 2, 3]] {
        for corners in 0..1 << 12 {
            closes_in_its_place(corners, sides);
        }
    }
}

/// Four cubes round an inner edge, and eight round an inner sample.
#[test]
fn noise_round_an_edge_and_round_a_sample() {
    let mut seed = Seed::new(11);
    for sides in [[3, 3, 2], [3, 2, 3], [2, 3, 3], [3, 3, 3]] {
        for _ in 0..1_000 {
            closes_in_its_place(seed.next() >> 7 & ((1 << count(sides)) - 1), sides);
        }
    }
}

#[test]
fn noise_in_grids_of_many_shapes() {
    let mut seed = Seed::new(12);
    for nx in 2..=8 {
        for ny in 2..=8 {
            for nz in 2..=8 {
                for bound in [2, 3, 65_536] {
                    let sides = [nx, ny, nz];
                    let samples: Vec<u16> = (0..count(sides))
                        .map(|_| seed.below(bound) as u16)
                        .collect();
                    let grey = seed.below(bound) as u16;
                    closes(sides, grey, &samples);
                }
            }
        }
    }
}

#[test]
fn checkerboards_and_long_rows() {
    let mut seed = Seed::new(13);
    for sides in [
        [2, 2, 2],
        [9, 8, 7],
        [64, 3, 4],
        [4, 64, 3],
        [3, 4, 64],
        [24, 24, 24],
    ] {
        let [nx, ny, _] = sides;
        let board: Vec<u16> = (0..count(sides) as u32)
            .map(|s| {
                let odd = (s % nx + s / nx % ny + s / (nx * ny)) % 2 == 1;
                if odd {
                    1_000
                } else {
                    10
                }
            })
            .collect();
        closes(sides, 500, &board);
        let spoilt: Vec<u16> = board
            .iter()
            .map(|&sample| {
                if seed.below(10) == 0 {
                    1_010 - sample
                } else {
                    sample
                }
            })
            .collect();
        closes(sides, 500, &spoilt);
    }
}

/// Blocks of 3 samples a side, many of them at the grey value, so that points share places.
#[test]
fn plateaus_at_the_grey_value() {
    let mut seed = Seed::new(14);
    let sides = [11, 10, 9];
    let [nx, ny, _] = sides;
    for values in [[0, 50, 50], [49, 50, 50], [0, 50, 65_535]] {
        for _ in 0..30 {
            let blocks: Vec<u16> = (0..64).map(|_| values[seed.below(3) as usize]).collect();
            let samples: Vec<u16> = (0..count(sides) as u32)
                .map(|s| [s % nx / 3, s / nx % ny / 3, s / (nx * ny) / 3])
                .map(|[x, y, z]| blocks[(x + 4 * (y + 4 * z)) as usize])
                .collect();
            let surface = closes(sides, 50, &samples);
            let mut places: Vec<&[u32]> = surface.points.chunks_exact(3).collect();
            places.sort_unstable();
            places.dedup();
            assert!(places.len() < surface.edges.len());
        }
    }
}

/// One sample in ten is below, so that there are hundreds of thousands of sides.
#[test]
fn noise_of_64_samples_a_side() {
    let mut seed = Seed::new(15);
    let samples: Vec<u16> = (0..64 * 64 * 64)
        .map(|_| if seed.below(10) == 0 { 10 } else { 1_000 })
        .collect();
    let surface = closes([64; 3], 500, &samples);
    assert!(surface.triangles.len() > 300_000);
}

/// One corner of a cube is above, and all sides of its triangle lie on outer faces.
#[test]
fn sides_on_outer_faces_have_no_twin() {
    let surface = closes([2, 2, 2], 50, &bits(1, [2, 2, 2]));
    let lone = [(0, 1), (1, 2), (2, 0)].map(|points| Side {
        points,
        outer: true,
        twin: false,
    });
    let half_edges = HalfEdges::of(&surface.triangles).unwrap();
    assert_eq!(sides_of([2, 2, 2], &surface, &half_edges), lone);
}

/// Two cubes, one on the other: the upper one is case 246, the lower one 111.
const TWO_CUBES: [u16; 12] = [100, 100, 100, 100, 0, 100, 100, 0, 100, 100, 100, 100];

/// By document 01's fans two sides run from point 2 to point 3, and two back.
#[test]
fn the_fans_of_document_01_have_no_half_edges() {
    let old = surface_of_document_01([2, 2, 3], 50, &TWO_CUBES);
    assert_eq!(slits([2, 2, 3], &old), Err(Twice((2, 3))));
    let new = closes([2, 2, 3], 50, &TWO_CUBES);
    assert_eq!(slits([2, 2, 3], &new), Ok(vec![]));
}

/// The twin of a half edge runs back, and has it as its own twin. Each cube's loop has four sides on outer faces; the other 16 of all 24 half edges are twins.
#[test]
fn twins_run_back() {
    let half_edges = HalfEdges::of(&closes([2, 2, 3], 50, &TWO_CUBES).triangles).unwrap();
    let all: Vec<_> = half_edges.all().collect();
    assert_eq!((all.len(), half_edges.lone().count()), (24, 8));
    for (number, &((from, to), twin)) in all.iter().enumerate() {
        if let Some(twin) = twin {
            assert_eq!(all[twin], ((to, from), Some(number)));
        }
    }
}

/// Two turns about a point are found: point 0 is the only one of two triangles, then of two whole tetrahedra.
#[test]
fn two_turns_are_found() {
    let open = HalfEdges::of(&[0, 1, 2, 0, 3, 4]).unwrap();
    assert_eq!(open.turns(5), [2, 1, 1, 1, 1]);
    let tetrahedron = |[a, b, c]: [u32; 3]| [[0, a, b], [0, b, c], [0, c, a], [a, c, b]];
    let two = [tetrahedron([1, 2, 3]), tetrahedron([4, 5, 6])];
    let closed = HalfEdges::of(two.as_flattened().as_flattened()).unwrap();
    assert_eq!(closed.turns(7), [2, 1, 1, 1, 1, 1, 1]);
    assert_eq!(closed.lone().next(), None);
}

/// A slit is found: one triangle taken away, one turned round, and case 246 as case 9 reversed.
#[test]
fn a_slit_is_found() {
    let mut samples = vec![0; 27];
    samples[13] = 100;
    let whole = closes([3, 3, 3], 50, &samples);
    for at in (0..24).step_by(3) {
        let mut surface = whole.clone();
        surface.triangles.drain(at..at + 3);
        assert_eq!(slits([3, 3, 3], &surface).unwrap().len(), 3);

        let mut surface = whole.clone();
        surface.triangles.swap(at, at + 1);
        assert!(slits([3, 3, 3], &surface).is_err());
    }

    let mut surface = closes([2, 2, 3], 50, &TWO_CUBES);
    let point = |edge: u32| surface.edges.iter().position(|&e| e == edge).unwrap() as u32;
    // cube edges 0, 8, 4 and 1, 11, 5 of the upper cube by their grid edges
    let wrong = [12, 14, 13, 18, 23, 16].map(point);
    let upper = surface.triangles.len() - 3 * 4;
    surface.triangles.truncate(upper);
    surface.triangles.extend(wrong);
    assert!(slits([2, 2, 3], &surface).unwrap().contains(&(2, 5)));
}
