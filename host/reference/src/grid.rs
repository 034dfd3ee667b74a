//! The points and triangles of a grid, as lists.

use crate::cube;

/// "each side nx, ny, nz: 2 to 64": the least side.
pub const LEAST_SIDE: u32 = 2;

/// "each side nx, ny, nz: 2 to 64": the greatest side.
pub const MOST_SIDE: u32 = 64;

/// Whether no side "is below 2 or above 64".
pub(crate) fn are_sides(sides: [u32; 3]) -> bool {
    sides
        .iter()
        .all(|side| (LEAST_SIDE..=MOST_SIDE).contains(side))
}

/// A grid of samples and one grey value. The sides are 2 to 64.
pub(crate) struct Grid<'a> {
    pub(crate) sides: [u32; 3],
    pub(crate) grey: u16,
    /// The samples of whole layers, one layer after the other.
    pub(crate) samples: &'a [u16],
    /// The z coordinate of the first of these layers. Nobody asks for a sample
    /// below it or past the last one.
    pub(crate) lowest: u32,
}

/// The point of one crossed grid edge.
pub struct Point {
    /// The number of the grid edge.
    pub edge: u32,
    /// Its coordinates along x, y and z, in units.
    pub place: [u32; 3],
    /// 1 on an outer face, else 0.
    pub mark: u8,
}

/// "256·|g − v0| / |v1 − v0| to the nearest whole number, halves up (g is the
/// grey value)."
///
/// `v0` and `v1` are the samples at the lower and the upper end of a crossed
/// edge; they differ.
pub fn offset(v0: u16, v1: u16, grey: u16) -> u32 {
    let numerator = 256 * u32::from(grey.abs_diff(v0));
    let denominator = u32::from(v1.abs_diff(v0));
    (2 * numerator + denominator) / (2 * denominator)
}

impl<'a> Grid<'a> {
    /// A grid whose samples are all there.
    pub(crate) fn whole(sides: [u32; 3], grey: u16, samples: &'a [u16]) -> Grid<'a> {
        Grid {
            sides,
            grey,
            samples,
            lowest: 0,
        }
    }

    fn sample(&self, [x, y, z]: [u32; 3]) -> u16 {
        self.samples[sample_number(self.sides, [x, y, z - self.lowest]) as usize]
    }

    /// "A sample is *above* if it is at least the grey value, else *below*."
    fn above(&self, at: [u32; 3]) -> bool {
        self.sample(at) >= self.grey
    }

    /// "Grid edge 3s + a leaves that sample along axis a (0 is x, 1 is y, 2 is
    /// z) towards the larger coordinate, if a sample is there."
    fn edge_number(&self, at: [u32; 3], axis: usize) -> u32 {
        3 * sample_number(self.sides, at) + axis as u32
    }

    /// "A point lies on an outer face when its grid edge does (a coordinate
    /// across the edge is 0 or the last) [..]; its mark is then 1, else 0."
    fn mark(&self, at: [u32; 3], axis: usize) -> u8 {
        let outer = (0..3).any(|across| {
            across != axis && (at[across] == 0 || at[across] == self.sides[across] - 1)
        });
        u8::from(outer)
    }

    /// The point of the edge that leaves `at` along `axis`, if the edge is
    /// there and crossed.
    ///
    /// "Across the edge it has the edge's whole coordinates times 256. Along
    /// it, from the lower end v0 to v1, it stands at 256 times the lower end's
    /// coordinate plus" the [`offset`].
    fn point(&self, at: [u32; 3], axis: usize) -> Option<Point> {
        let mut end = at;
        end[axis] += 1;
        if end[axis] == self.sides[axis] || self.above(at) == self.above(end) {
            return None;
        }
        let mut place = at.map(|coordinate| 256 * coordinate);
        place[axis] += offset(self.sample(at), self.sample(end), self.grey);
        Some(Point {
            edge: self.edge_number(at, axis),
            place,
            mark: self.mark(at, axis),
        })
    }

    /// The points of the crossed edges that leave these samples, in their order.
    fn points_from(&self, samples: impl Iterator<Item = [u32; 3]>) -> Vec<Point> {
        let mut points = Vec::new();
        for at in samples {
            points.extend((0..3).filter_map(|axis| self.point(at, axis)));
        }
        points
    }

    /// "One point per crossed grid edge, in rising order of grid edge number,
    /// numbered from 0."
    pub(crate) fn points(&self) -> Vec<Point> {
        self.points_from(places(self.sides))
    }

    /// The points of the crossed edges that leave the samples of layer `z`.
    ///
    /// Only this layer is asked for its samples, and the one above it if it is
    /// not the last of the grid.
    pub(crate) fn layer_points(&self, z: u32) -> Vec<Point> {
        self.points_from(layer_places(self.sides, z))
    }

    /// The case number of the cube whose corner 0 is the sample `at`.
    fn case(&self, at: [u32; 3]) -> u8 {
        (0..cube::CORNERS)
            .filter(|&corner| self.above(shifted(at, cube::corner_place(corner))))
            .fold(0, |case, corner| case | 1 << corner)
    }

    /// Whether the cube whose corner 0 is the sample `at` is crossed: it has a
    /// corner above and a corner below.
    pub(crate) fn is_crossed(&self, at: [u32; 3]) -> bool {
        let (all_below, all_above) = (0, u8::MAX);
        let case = self.case(at);
        case != all_below && case != all_above
    }

    /// The triangles of these cubes, each in "the case's order", each corner
    /// named by its grid edge. `cases` are the triangles of every case.
    fn edge_triangles(
        &self,
        cubes: impl Iterator<Item = [u32; 3]>,
        cases: &[Vec<[u8; 3]>],
    ) -> Vec<[u32; 3]> {
        let ends: Vec<_> = (0..cube::EDGES).map(cube::edge_ends).collect();
        let mut triangles = Vec::new();
        for at in cubes {
            for triangle in &cases[usize::from(self.case(at))] {
                triangles.push(triangle.map(|cube_edge| {
                    let (axis, low, _) = ends[usize::from(cube_edge)];
                    self.edge_number(shifted(at, cube::corner_place(low)), axis)
                }));
            }
        }
        triangles
    }

    /// "Triangles come cube by cube, x fastest, then y, then z, in the case's
    /// order."
    ///
    /// `points` is the list of [`Grid::points`], and `cases` are the triangles
    /// of every case.
    pub(crate) fn triangles(&self, points: &[Point], cases: &[Vec<[u8; 3]>]) -> Vec<[u32; 3]> {
        self.triangles_of(cubes(self.sides), points, cases)
    }

    /// The triangles of these cubes, in their order, each in "the case's order".
    pub(crate) fn triangles_of(
        &self,
        cubes: impl Iterator<Item = [u32; 3]>,
        points: &[Point],
        cases: &[Vec<[u8; 3]>],
    ) -> Vec<[u32; 3]> {
        let mut number_of = vec![None; 3 * self.samples.len()];
        for (number, point) in (0..).zip(points) {
            number_of[point.edge as usize] = Some(number);
        }
        let named = |edge: u32| {
            number_of[edge as usize].expect("a crossed cube edge is a crossed grid edge")
        };
        self.edge_triangles(cubes, cases)
            .into_iter()
            .map(|triangle| triangle.map(named))
            .collect()
    }

    /// The triangles of the cubes between layer `z` and the one above it, "x
    /// fastest, then y", each corner named by its grid edge.
    ///
    /// Only these two layers are asked for their samples.
    pub(crate) fn layer_triangles(&self, z: u32) -> Vec<[u32; 3]> {
        let cubes = layer_places(self.sides.map(|side| side - 1), z);
        self.edge_triangles(cubes, &cube::CASES)
    }
}

/// "Sample (x,y,z) stands at s = x + nx(y + ny z)."
pub(crate) fn sample_number([nx, ny, _]: [u32; 3], [x, y, z]: [u32; 3]) -> u32 {
    x + nx * (y + ny * z)
}

/// The cubes of a grid with these sides, each named by its corner 0, "x fastest,
/// then y, then z".
///
/// Cube (x, y, z) has its corners at the samples x to x + 1, y to y + 1 and z to
/// z + 1, and all of these are samples of the grid.
pub(crate) fn cubes(sides: [u32; 3]) -> impl Iterator<Item = [u32; 3]> {
    places(sides.map(|side| side - 1))
}

/// All (x, y, z) below `sides`, "x fastest, then y, then z".
fn places(sides: [u32; 3]) -> impl Iterator<Item = [u32; 3]> {
    (0..sides[2]).flat_map(move |z| layer_places(sides, z))
}

/// Those of them in layer `z`, "x fastest, then y".
fn layer_places([nx, ny, _]: [u32; 3], z: u32) -> impl Iterator<Item = [u32; 3]> {
    (0..ny).flat_map(move |y| (0..nx).map(move |x| [x, y, z]))
}

/// The place that lies so far from `at`.
pub(crate) fn shifted(at: [u32; 3], by: [u8; 3]) -> [u32; 3] {
    [0, 1, 2].map(|axis| at[axis] + u32::from(by[axis]))
}
