//! A small generator of numbers, meshes, grids and rooms.

use reference::extract::{extract, Extracted};
use reference::query::{query, Queried};
use reference::shells::Shell;

/// An xorshift generator.
pub struct Random(u64);

impl Random {
    pub fn new(seed: u64) -> Random {
        let mut random = Random(seed.wrapping_mul(0x9E37_79B9_7F4A_7C15) | 1);
        for _ in 0..8 {
            random.next();
        }
        random
    }

    fn next(&mut self) -> u64 {
        self.0 ^= self.0 << 13;
        self.0 ^= self.0 >> 7;
        self.0 ^= self.0 << 17;
        self.0
    }

    /// A number below `bound`.
    pub fn below(&mut self, bound: u32) -> u32 {
        ((self.next() >> 11) % u64::from(bound)) as u32
    }
}

/// A mesh as the calls take it.
#[derive(Clone, PartialEq, Debug)]
pub struct Mesh {
    pub points: Vec<u32>,
    pub triangles: Vec<u32>,
    pub marks: Vec<u8>,
}

impl Mesh {
    pub fn triangle_count(&self) -> usize {
        self.triangles.len() / 3
    }
}

/// A mesh that passes the checks: `v` points with coordinates up to `most`, and
/// `t` triangles of three different points. One mark in four is 1.
pub fn random_mesh(random: &mut Random, v: u32, t: u32, most: u32) -> Mesh {
    let points = (0..3 * v).map(|_| random.below(most + 1)).collect();
    let marks = (0..v).map(|_| u8::from(random.below(4) == 0)).collect();
    let mut triangles = Vec::new();
    while triangles.len() < 3 * t as usize {
        let [a, b, c] = [0; 3].map(|_| random.below(v));
        if a != b && b != c && c != a {
            triangles.extend([a, b, c]);
        }
    }
    Mesh {
        points,
        triangles,
        marks,
    }
}

/// A mesh that passes the checks and touches nothing special: a tetrahedron and
/// a point by itself.
pub fn small_mesh() -> Mesh {
    Mesh {
        points: vec![
            100, 100, 100, 900, 120, 80, 200, 800, 140, 300, 260, 700, 5, 6, 7,
        ],
        triangles: vec![0, 2, 1, 0, 1, 3, 1, 2, 3, 2, 0, 3],
        marks: vec![0, 1, 0, 0, 0],
    }
}

/// So many records, full of values that no call writes.
pub fn guarded_records(count: usize) -> Vec<Shell> {
    let guard = |i: u32| Shell {
        low: 3_000_000_000 + i,
        points: 3_100_000_000 + i,
        triangles: 3_200_000_000 + i,
        touches: 3_300_000_000 + i,
        volume: i64::MIN + i64::from(i),
        least: [3_400_000_000, 3_500_000_000, 3_600_000_000].map(|start| start + i),
        greatest: [3_700_000_000, 3_800_000_000, 3_900_000_000].map(|start| start + i),
    };
    (0..count as u32).map(guard).collect()
}

/// A grid as the extractor takes it.
#[derive(Clone, Debug)]
pub struct Grid {
    pub sides: [u32; 3],
    pub grey: u16,
    pub samples: Vec<u16>,
}

impl Grid {
    /// A grid filled with one sample.
    pub fn filled(sides: [u32; 3], grey: u16, sample: u16) -> Grid {
        let count = sides.iter().product::<u32>() as usize;
        Grid {
            sides,
            grey,
            samples: vec![sample; count],
        }
    }

    pub fn set(&mut self, [x, y, z]: [u32; 3], sample: u16) {
        let at = x + self.sides[0] * (y + self.sides[1] * z);
        self.samples[at as usize] = sample;
    }

    /// "3×3×3, centre 100, else 0, grey 50".
    pub fn centre() -> Grid {
        let mut grid = Grid::filled([3, 3, 3], 50, 0);
        grid.set([1, 1, 1], 100);
        grid
    }

    /// A grid of samples 100 and 0 and grey value 50, with these above.
    pub fn above_where(sides: [u32; 3], above: impl Fn([u32; 3]) -> bool) -> Grid {
        let mut grid = Grid::filled(sides, 50, 0);
        let [nx, ny, _] = sides;
        for (s, sample) in (0..).zip(&mut grid.samples) {
            if above([s % nx, s / nx % ny, s / (nx * ny)]) {
                *sample = 100;
            }
        }
        grid
    }

    /// Side 64, every other sample above.
    pub fn checkerboard() -> Grid {
        let mut grid = Grid::filled([64, 64, 64], 1, 0);
        for (s, sample) in grid.samples.iter_mut().enumerate() {
            let (x, y, z) = (s % 64, s / 64 % 64, s / 4096);
            *sample = ((x + y + z) % 2) as u16;
        }
        grid
    }
}

/// Isolated above samples off the outer faces, none near the last layer: 6 points
/// each, 249,996 in all.
fn nearly_250_000_points() -> Grid {
    let mut grid = Grid::filled([64, 64, 64], 1, 0);
    let mut inside = 0;
    'all: for z in 1..62 {
        for y in 1..63 {
            for x in 1..63 {
                if (x + y + z) % 2 == 0 {
                    grid.set([x, y, z], 1);
                    inside += 1;
                    if inside == 41_666 {
                        break 'all;
                    }
                }
            }
        }
    }
    grid
}

/// A grid of 250,000 points: an isolated sample on an outer edge of the grid
/// adds 4.
pub fn exactly_250_000_points() -> Grid {
    let mut grid = nearly_250_000_points();
    grid.set([0, 31, 63], 1);
    grid
}

/// A grid of 250,001 points: an isolated sample on an outer face adds 5.
pub fn one_point_more() -> Grid {
    let mut grid = nearly_250_000_points();
    grid.set([31, 31, 63], 1);
    grid
}

/// A grid of 500,000 triangles: random holes in the first samples give 499,993; a
/// hole by itself on an outer face adds four, on an outer edge of the grid two,
/// at its corner one.
pub fn exactly_500_000_triangles() -> Grid {
    let mut random = Random::new(5);
    let mut grid = Grid::filled([64, 64, 64], 500, 1000);
    for sample in &mut grid.samples[..187_726] {
        if random.below(100) < 30 {
            *sample = 0;
        }
    }
    for place in [[31, 31, 63], [31, 0, 63], [0, 0, 63]] {
        grid.set(place, 0);
    }
    grid
}

/// A grid of 500,001 triangles: another hole at a corner.
pub fn one_triangle_more() -> Grid {
    let mut grid = exactly_500_000_triangles();
    grid.set([63, 63, 63], 0);
    grid
}

/// A grid with random sides below 8, and samples of several kinds.
pub fn random_grid(random: &mut Random) -> Grid {
    let sides = [0; 3].map(|_| 2 + random.below(6));
    random_grid_of(random, sides)
}

/// A grid with these sides, and samples of several kinds.
pub fn random_grid_of(random: &mut Random, sides: [u32; 3]) -> Grid {
    let (bound, grey) = match random.below(4) {
        0 => (2, 1),
        1 => (6, 3),
        2 => (65_536, 32_768),
        _ => (65_536, random.below(65_536) as u16),
    };
    let mut grid = Grid::filled(sides, grey, 0);
    for sample in &mut grid.samples {
        *sample = random.below(bound) as u16;
    }
    grid
}

/// All rooms of an extraction or a query.
#[derive(Clone, PartialEq, Debug)]
pub struct Rooms {
    pub points: Vec<u32>,
    pub edges: Vec<u32>,
    pub marks: Vec<u8>,
    pub triangles: Vec<u32>,
    pub work: Vec<u32>,
}

impl Rooms {
    /// Rooms of these lengths, full of values that no call writes.
    pub fn guarded(
        points: usize,
        edges: usize,
        marks: usize,
        triangles: usize,
        work: usize,
    ) -> Rooms {
        Rooms {
            points: (0..points as u32).map(|i| 3_000_000_000 + i).collect(),
            edges: (0..edges as u32).map(|i| 2_000_000_000 + i).collect(),
            marks: (0..marks).map(|i| 100 + (i % 100) as u8).collect(),
            triangles: (0..triangles as u32).map(|i| 1_000_000_000 + i).collect(),
            work: (0..work as u32).map(|i| 4_000_000_000 + i).collect(),
        }
    }

    /// Rooms that hold the mesh of so many samples for sure.
    pub fn enough(samples: usize) -> Rooms {
        Rooms::guarded(
            9 * samples,
            3 * samples,
            3 * samples,
            15 * samples,
            3 * samples,
        )
    }

    pub fn extract(&mut self, grid: &Grid) -> Extracted {
        let [nx, ny, nz] = grid.sides;
        extract(
            nx,
            ny,
            nz,
            grid.grey,
            &grid.samples,
            &mut self.points,
            &mut self.edges,
            &mut self.marks,
            &mut self.triangles,
            &mut self.work,
        )
    }

    pub fn query(&mut self, grid: &Grid, summary: &[u16]) -> Queried {
        let [nx, ny, nz] = grid.sides;
        query(
            nx,
            ny,
            nz,
            grid.grey,
            &grid.samples,
            summary,
            &mut self.points,
            &mut self.edges,
            &mut self.marks,
            &mut self.triangles,
            &mut self.work,
        )
    }

    /// These rooms with the work room zero.
    pub fn with_zero_work(&self) -> Rooms {
        let mut rooms = self.clone();
        rooms.work = vec![0; rooms.work.len()];
        rooms
    }
}

/// The mesh of a grid and its grid edges, from rooms that hold it for sure.
pub fn extracted(grid: &Grid) -> (Mesh, Vec<u32>) {
    let mut rooms = Rooms::enough(grid.samples.len());
    let answer = rooms.extract(grid);
    assert_eq!(answer.number, 0);
    let Rooms {
        mut points,
        mut edges,
        mut marks,
        mut triangles,
        ..
    } = rooms;
    points.truncate(3 * answer.points as usize);
    edges.truncate(answer.points as usize);
    marks.truncate(answer.points as usize);
    triangles.truncate(3 * answer.triangles as usize);
    let mesh = Mesh {
        points,
        triangles,
        marks,
    };
    (mesh, edges)
}

/// The faulty meshes of refusals 6, 7, 8 and 9. The mesh of each refusal holds
/// the faults of all later ones too, so that the order shows.
pub fn faulty_meshes() -> Vec<(u32, Mesh)> {
    let mut faulty = Vec::new();
    let mut mesh = small_mesh();
    mesh.marks[4] = 2;
    faulty.push((9, mesh.clone()));
    mesh.points[1] = 16_129;
    faulty.push((8, mesh.clone()));
    let mut twice = mesh.clone();
    twice.triangles[10] = twice.triangles[9];
    faulty.push((7, twice));
    let mut beyond = mesh.clone();
    beyond.triangles[11] = 5;
    faulty.push((7, beyond.clone()));
    let mut short = beyond.clone();
    short.points.pop();
    faulty.push((6, short));
    let mut odd = beyond.clone();
    odd.triangles.push(0);
    faulty.push((6, odd));
    faulty
}
