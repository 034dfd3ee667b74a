//! What the comparing tests share: made-up numbers, grids, rooms with guard values, and one call made on both sides.
#![allow(dead_code)]

/// Made-up numbers, the same for the same seed.
pub struct Seed(u64);

impl Seed {
    pub fn new(seed: u64) -> Self {
        Seed(seed.wrapping_mul(0x9e37_79b9_7f4a_7c15) | 1)
    }

    pub fn next(&mut self) -> u64 {
        self.0 ^= self.0 << 13;
        self.0 ^= self.0 >> 7;
        self.0 ^= self.0 << 17;
        self.0
    }

    pub fn below(&mut self, bound: u64) -> u64 {
        (self.next() >> 11) % bound
    }
}

/// How many samples a grid of these sides has.
pub fn count(sides: [u32; 3]) -> usize {
    sides.iter().map(|&side| side as usize).product()
}

/// Samples made up below a bound.
pub fn noise(seed: &mut Seed, sides: [u32; 3], bound: u64) -> Vec<u16> {
    (0..count(sides))
        .map(|_| seed.below(bound) as u16)
        .collect()
}

/// Samples above and below in turn, along every axis.
pub fn checkerboard(sides: [u32; 3]) -> Vec<u16> {
    let [nx, ny, _] = sides;
    (0..count(sides) as u32)
        .map(|s| {
            if (s % nx + s / nx % ny + s / (nx * ny)) % 2 == 0 {
                1000
            } else {
                10
            }
        })
        .collect()
}

/// The rooms of one call of the extractor, whole.
#[derive(Clone, PartialEq, Eq, Debug)]
pub struct Rooms {
    pub points: Vec<u32>,
    pub edges: Vec<u32>,
    pub marks: Vec<u8>,
    pub triangles: Vec<u32>,
    pub work: Vec<u32>,
}

/// The lengths of the five rooms.
#[derive(Clone, Copy, PartialEq, Eq, Debug)]
pub struct Lengths {
    pub points: usize,
    pub edges: usize,
    pub marks: usize,
    pub triangles: usize,
    pub work: usize,
}

/// Guard values, a different one at each place.
pub fn guard(start: u32, length: usize) -> Vec<u32> {
    (0..length as u32)
        .map(|i| start ^ i.wrapping_mul(0x0101_4943))
        .collect()
}

impl Rooms {
    /// Rooms of these lengths full of guard values, a different one at each place.
    pub fn guarded(lengths: Lengths) -> Rooms {
        Rooms {
            points: guard(0xa5a5_0001, lengths.points),
            edges: guard(0x5a5a_0003, lengths.edges),
            marks: (0..lengths.marks).map(|i| 0xc3 ^ i as u8).collect(),
            triangles: guard(0xdead_0005, lengths.triangles),
            work: guard(0xbeef_0007, lengths.work),
        }
    }
}

/// Rooms that hold everything a grid of these sides can give, with some to spare.
pub fn roomy(sides: [u32; 3]) -> Lengths {
    let samples = count(sides);
    let cubes: usize = sides.iter().map(|&side| side as usize - 1).product();
    Lengths {
        points: 9 * samples + 7,
        edges: 3 * samples + 5,
        marks: 3 * samples + 3,
        triangles: 15 * cubes + 11,
        work: 3 * samples,
    }
}

/// One call on both sides, on equal rooms: the same answer, and the same content of every place of every room.
pub fn same(
    sides: [u32; 3],
    grey: u16,
    samples: &[u16],
    lengths: Lengths,
) -> (viewer::Extracted, Rooms) {
    let mut proved = Rooms::guarded(lengths);
    let mut plain = proved.clone();
    let found = viewer::extract(
        sides,
        grey,
        samples,
        viewer::Rooms {
            points: &mut proved.points,
            edges: &mut proved.edges,
            marks: &mut proved.marks,
            triangles: &mut proved.triangles,
            work: &mut proved.work,
        },
    );
    let [nx, ny, nz] = sides;
    let expected = reference::extract::extract(
        nx,
        ny,
        nz,
        grey,
        samples,
        &mut plain.points,
        &mut plain.edges,
        &mut plain.marks,
        &mut plain.triangles,
        &mut plain.work,
    );
    let at = format!("sides {sides:?}, grey value {grey}, rooms {lengths:?}");
    assert_eq!(
        (found.number, found.points, found.triangles),
        (expected.number, expected.points, expected.triangles),
        "{at}"
    );
    assert_eq!(proved.points, plain.points, "points, {at}");
    assert_eq!(proved.edges, plain.edges, "edges, {at}");
    assert_eq!(proved.marks, plain.marks, "marks, {at}");
    assert_eq!(proved.triangles, plain.triangles, "triangles, {at}");
    assert_eq!(proved.work, plain.work, "work room, {at}");
    (found, proved)
}

/// The surface of a grid with document 01's fans, which start at the lowest edges of their loops, by the reference.
pub fn surface_of_document_01(sides: [u32; 3], grey: u16, samples: &[u16]) -> viewer::Surface {
    let (points, triangles) = reference::extract::mesh_of_document_01(sides, grey, samples);
    viewer::Surface {
        points: points.iter().flat_map(|point| point.place).collect(),
        edges: points.iter().map(|point| point.edge).collect(),
        marks: points.iter().map(|point| point.mark).collect(),
        triangles: triangles.concat(),
    }
}

/// A mesh as a caller hands it in.
#[derive(Clone, PartialEq, Eq, Debug)]
pub struct Caller {
    pub points: Vec<u32>,
    pub triangles: Vec<u32>,
    pub marks: Vec<u8>,
}

impl Caller {
    pub fn lent(&self) -> viewer::Mesh<'_> {
        viewer::Mesh {
            points: &self.points,
            triangles: &self.triangles,
            marks: &self.marks,
        }
    }
}

/// The mesh of a grid.
pub fn mesh_of(sides: [u32; 3], grey: u16, samples: &[u16]) -> Caller {
    let (found, mut rooms) = same(sides, grey, samples, roomy(sides));
    assert_eq!(found.number, 0);
    rooms.points.truncate(3 * found.points as usize);
    rooms.triangles.truncate(3 * found.triangles as usize);
    rooms.marks.truncate(found.points as usize);
    Caller {
        points: rooms.points,
        triangles: rooms.triangles,
        marks: rooms.marks,
    }
}

/// The mesh of a made-up grid with samples below a bound.
pub fn extracted(seed: &mut Seed, sides: [u32; 3], bound: u64) -> Caller {
    let samples = noise(seed, sides, bound);
    mesh_of(sides, (bound / 2) as u16, &samples)
}

/// The same mesh with its points smoothed.
pub fn smoothed(mesh: &Caller, rounds: u32, weight: u32) -> Caller {
    Caller {
        points: mesh.lent().smooth(rounds, weight).unwrap(),
        ..mesh.clone()
    }
}

/// A shell's box: the least and the greatest along each axis.
pub fn extents(shell: &viewer::Shell) -> [[u32; 2]; 3] {
    [
        [shell.least_x, shell.greatest_x],
        [shell.least_y, shell.greatest_y],
        [shell.least_z, shell.greatest_z],
    ]
}

/// Records that hold something before the call, a different one at each place.
pub fn held(length: usize) -> Vec<viewer::Shell> {
    (0..length as u32)
        .map(|i| viewer::Shell {
            low: 0xa5a5_0001 ^ i,
            points: 0x5a5a_0003 ^ i,
            triangles: 0xdead_0005 ^ i,
            touches: 0xbeef_0007 ^ i,
            volume: -0x0123_4567_89ab - i64::from(i),
            least_x: 0xa5a5_0009 ^ i,
            greatest_x: 0x5a5a_000b ^ i,
            least_y: 0xdead_000d ^ i,
            greatest_y: 0xbeef_000f ^ i,
            least_z: 0xc3c3_0011 ^ i,
            greatest_z: 0x3c3c_0013 ^ i,
        })
        .collect()
}

/// A record as the reference has it.
pub fn plain(shell: &viewer::Shell) -> reference::shells::Shell {
    reference::shells::Shell {
        low: shell.low,
        points: shell.points,
        triangles: shell.triangles,
        touches: shell.touches,
        volume: shell.volume,
        least: [shell.least_x, shell.least_y, shell.least_z],
        greatest: [shell.greatest_x, shell.greatest_y, shell.greatest_z],
    }
}

/// So many triangles of three different points below a count, made up.
pub fn made_up_triangles(seed: &mut Seed, count: u64, triangles: usize) -> Vec<u32> {
    (0..triangles)
        .flat_map(|_| {
            let first = seed.below(count) as u32;
            let second = (first + 1 + seed.below(count - 2) as u32) % count as u32;
            let third = (0..count as u32)
                .cycle()
                .skip(seed.below(count) as usize)
                .find(|&p| p != first && p != second)
                .unwrap();
            [first, second, third]
        })
        .collect()
}

/// Points at made-up places, some of them marked, and these triangles.
pub fn placed(seed: &mut Seed, count: usize, triangles: Vec<u32>) -> Caller {
    Caller {
        points: (0..3 * count).map(|_| seed.below(16_129) as u32).collect(),
        triangles,
        marks: (0..count).map(|_| (seed.below(50) == 0) as u8).collect(),
    }
}

/// Triangles in another order.
pub fn shuffled(seed: &mut Seed, mut triples: Vec<[u32; 3]>) -> Vec<u32> {
    for i in (1..triples.len()).rev() {
        triples.swap(i, seed.below(i as u64 + 1) as usize);
    }
    triples.concat()
}

/// Counts of points and triangles on them, with points by themselves in most.
pub fn by_hand() -> Vec<(usize, Vec<u32>)> {
    let fan = (1..=1000).flat_map(|i| [0, i, i + 1]).collect();
    vec![
        (3, vec![0, 1, 2]),
        (6, vec![0, 1, 2, 1, 0, 3, 0, 1, 4, 1, 0, 5]),
        (1002, fan),
        (9, vec![7, 2, 4]),
        (9, vec![8, 7, 6, 5, 4, 3, 2, 1, 0]),
        (7, vec![6, 5, 4, 3, 2, 6]),
        (500, vec![]),
        (0, vec![]),
    ]
}

/// The mesh with 6, 7, 8 and 9 made true where bits 0 to 3 are set.
pub fn spoiled(whole: &Caller, wrong: u32) -> Caller {
    let is = |bit: u32| wrong >> bit & 1 == 1;
    let mut mesh = whole.clone();
    if is(1) {
        mesh.triangles[4] = mesh.triangles[5];
    }
    if is(2) {
        *mesh.points.last_mut().unwrap() = 16_129;
    }
    if is(3) {
        mesh.marks[0] = 2;
    }
    if is(0) {
        mesh.points.push(1);
    }
    mesh
}

/// The first number of an order whose bit is set, or 0.
pub fn first_of(order: &[u32], wrong: u32) -> u32 {
    let first = order.get(wrong.trailing_zeros() as usize);
    first.copied().unwrap_or(0)
}
