//! The calls as the library has them, on rooms that the caller lends. Each answers a number: 0 if granted, else the refusal's, which
//! [`Refusal::check`](crate::Refusal::check) turns into a result.

use crate::c;

/// The least side of a grid.
pub const LEAST_SIDE: u32 = 2;
/// The greatest side of a grid.
pub const MOST_SIDE: u32 = 64;
/// The most points of a mesh.
pub const MOST_POINTS: usize = 250_000;
/// The most triangles of a mesh.
pub const MOST_TRIANGLES: usize = 500_000;
/// The greatest coordinate, in 1/256 of a voxel.
pub const MOST_COORDINATE: u32 = 16_128;
/// The most rounds of smoothing.
pub const MOST_ROUNDS: u32 = 100;
/// The greatest weight of smoothing, the whole way to the neighbours' mean.
pub const MOST_WEIGHT: u32 = 256;

/// The length of the room for the state of a run of layers.
pub const LAYERS_STATE: usize = 4_104;

/// The length of the summary of a grid's samples, whatever its sides are.
pub const SUMMARY_LENGTH: usize = 599_186;

/// The length of the extractor's work room for so many samples.
pub const fn extract_work(samples: usize) -> usize {
    3 * samples
}

/// At least as many points as one call of a run can hand out whose layers have so many samples.
pub const fn layer_points(samples: usize) -> usize {
    3 * samples
}

/// At least as many triangles as one call of a run can hand out whose layers have so many samples.
pub const fn layer_triangles(samples: usize) -> usize {
    5 * samples
}

/// The length of the work room of smoothing.
pub const fn smooth_work(points: usize, triangles: usize) -> usize {
    6 * triangles + 5 * points + 1
}

/// The length of the work room of the shell list.
pub const fn shells_work(points: usize) -> usize {
    2 * points
}

/// So many bytes hold the text of any mesh of so many points, triangles and shells.
pub const fn text_room(points: usize, triangles: usize, shells: usize) -> usize {
    35 + 57 * points + 35 * triangles + 133 * shells
}

/// The length of the reader's work room for a text of so many points and triangles.
pub const fn read_work(points: usize, triangles: usize) -> usize {
    6 * points + 3 * triangles
}

/// How many triangles a case of the cube has: 0 to 5.
pub fn case_count(case: u8) -> u8 {
    c::case_count(case)
}

/// The edge number at a place, 0 to 14, of a case's five triangles; 0 at any place beyond.
pub fn case_edge(case: u8, place: u32) -> u8 {
    c::case_edge(case, place)
}

/// What the extractor answers, or a layer of a run: number 0 and the two counts if granted, else the refusal's number and zero counts.
#[derive(Clone, Copy, PartialEq, Eq, Debug)]
pub struct Extracted {
    /// 0 if granted, else the refusal's number.
    pub number: u32,
    /// How many points there are.
    pub points: u32,
    /// How many triangles there are.
    pub triangles: u32,
}

/// The rooms of the extractor, of a query, and of the reader of a mesh's text, which has one more. A granted call fills all but the last from the front, and
/// the rest of each stays. A room for points or triangles counts its whole threes.
pub struct Rooms<'a> {
    /// Three coordinates a point, in 1/256 of a voxel.
    pub points: &'a mut [u32],
    /// The number of each point's grid edge.
    pub edges: &'a mut [u32],
    /// 1 for a point on an outer face of the grid, else 0.
    pub marks: &'a mut [u8],
    /// Three point numbers a triangle.
    pub triangles: &'a mut [u32],
    /// The work room, of exactly [`extract_work`] numbers, or [`read_work`] for the reader.
    pub work: &'a mut [u32],
}

/// The mesh of a grid at one grey value, into lent rooms. Sample (x, y, z) is samples[x + nx (y + ny z)]. Refusals: 1, 2, 3, 4, 5.
pub fn extract(sides: [u32; 3], grey: u16, samples: &[u16], rooms: Rooms<'_>) -> Extracted {
    let mut points = 0;
    let mut triangles = 0;
    let number = c::extract(
        sides,
        grey,
        samples,
        rooms.points,
        rooms.edges,
        rooms.marks,
        rooms.triangles,
        rooms.work,
        &mut points,
        &mut triangles,
    );
    Extracted {
        number,
        points,
        triangles,
    }
}

/// Opens a run of layers at one grey value: a volume of these sides will be handed in one z layer after the other. The room for the state, of exactly
/// [`LAYERS_STATE`] numbers, is written whole, and lent to each later call as the last granted one left it. Answers 0 if granted, else the refusal's
/// number: 1, 3.
pub fn layers_open(sides: [u32; 3], grey: u16, state: &mut [u32]) -> u32 {
    c::layers_open(sides, grey, state)
}

/// The rooms for what a layer of a run hands out. A granted call fills them from the front, and the rest of each stays. A room for points or triangles
/// counts its whole threes.
pub struct LayerRooms<'a> {
    /// Three coordinates a point, in 1/256 of a voxel.
    pub points: &'a mut [u32],
    /// The number of each point's grid edge.
    pub edges: &'a mut [u32],
    /// 1 for a point on an outer face of the grid, else 0.
    pub marks: &'a mut [u8],
    /// Three grid edges a triangle, each that of a corner's point.
    pub triangles: &'a mut [u32],
}

/// The next layer of a run: sample (x, y) is layer[x + nx y]. Hands out the points of the layer below and the triangles of the cubes between the two, into
/// lent rooms. A refused call leaves the state. Refusals: 3, 1, 17, 4, 5.
pub fn layers_next(layer: &[u16], state: &mut [u32], rooms: LayerRooms<'_>) -> Extracted {
    // The call sets both, whatever it answers.
    let mut counts = [u32::MAX; 2];
    let number = c::layers_next(
        layer,
        state,
        rooms.points,
        rooms.edges,
        rooms.marks,
        rooms.triangles,
        &mut counts,
    );
    let [points, triangles] = counts;
    Extracted {
        number,
        points,
        triangles,
    }
}

/// What the closing of a run answers: number 0 and the count of points if granted, else the refusal's number and count 0.
#[derive(Clone, Copy, PartialEq, Eq, Debug)]
pub struct Closed {
    /// 0 if granted, else the refusal's number.
    pub number: u32,
    /// How many points there are.
    pub points: u32,
}

/// Closes a run whose layers were all handed in, and hands out the points of the last one, as [`layers_next`] does. A refused call leaves the state.
/// Refusals: 3, 1, 18, 4.
pub fn layers_close(
    state: &mut [u32],
    points: &mut [u32],
    edges: &mut [u32],
    marks: &mut [u8],
) -> Closed {
    // The call sets it, whatever it answers.
    let mut count = u32::MAX;
    let number = c::layers_close(state, points, edges, marks, &mut count);
    Closed {
        number,
        points: count,
    }
}

/// Builds the summary of the samples of a grid in a room of exactly [`SUMMARY_LENGTH`] numbers, which is written whole: two numbers a block, the least and the
/// greatest sample at the corners of its cubes. Answers 0 if granted, else the refusal's number: 1, 2, 3.
pub fn summary(sides: [u32; 3], samples: &[u16], summary: &mut [u16]) -> u32 {
    c::summary(sides, samples, summary)
}

/// What a query answers: number 0 and the three counts if granted, else the refusal's number and zero counts.
#[derive(Clone, Copy, PartialEq, Eq, Debug)]
pub struct Queried {
    /// 0 if granted, else the refusal's number.
    pub number: u32,
    /// How many points there are.
    pub points: u32,
    /// How many triangles there are.
    pub triangles: u32,
    /// How many blocks were looked at.
    pub blocks: u32,
}

/// The mesh of a grid at one grey value by the summary of its samples, as [`summary()`] builds it, into lent rooms: all that [`extract`] leaves there. Every
/// query reads all samples and the whole summary, since it keeps nothing and takes no other summary. Refusals: 1, 2, 3, 19, 4, 5.
pub fn query(
    sides: [u32; 3],
    grey: u16,
    samples: &[u16],
    summary: &[u16],
    rooms: Rooms<'_>,
) -> Queried {
    // The call sets all three, whatever it answers.
    let mut counts = [u32::MAX; 3];
    let number = c::query(
        sides,
        grey,
        samples,
        summary,
        rooms.points,
        rooms.edges,
        rooms.marks,
        rooms.triangles,
        rooms.work,
        &mut counts,
    );
    let [points, triangles, blocks] = counts;
    Queried {
        number,
        points,
        triangles,
        blocks,
    }
}

/// A mesh as a caller hands it in, lent. V is the length of the marks. Calls on it refuse with 6, 7, 8, 9 what it must not have, and the writer with 6 alone.
#[derive(Clone, Copy, Debug)]
pub struct Mesh<'a> {
    /// Three coordinates a point, in 1/256 of a voxel.
    pub points: &'a [u32],
    /// Three point numbers a triangle.
    pub triangles: &'a [u32],
    /// A mark a point: 1 on an outer face of the grid, else 0.
    pub marks: &'a [u8],
}

/// Rounds of smoothing of a weight, into the second point list of 3V numbers, with a work room of exactly [`smooth_work`] numbers. Answers 0 if
/// granted, else the refusal's number: 6, 7, 8, 9, 10, 3.
pub fn smooth(
    mesh: Mesh<'_>,
    rounds: u32,
    weight: u32,
    smoothed: &mut [u32],
    work: &mut [u32],
) -> u32 {
    c::smooth(
        mesh.points,
        mesh.triangles,
        mesh.marks,
        rounds,
        weight,
        smoothed,
        work,
    )
}

/// One point's coordinates out of the raw list, or out of the smoothed one if `second` is not 0. Answers 0 if granted, else the refusal's
/// number, 6 or 14, and the place stays.
pub fn show(raw: &[u32], smoothed: &[u32], second: u32, point: u32, place: &mut [u32; 3]) -> u32 {
    c::show(raw, smoothed, second, point, place)
}

/// A shell's record, laid out as the library has it. The six numbers at its end are its box, in 1/256 of a voxel: that of the mesh's places, raw or
/// smoothed as they are lent. The box of a point in no triangle is its own place.
#[repr(C)]
#[derive(Clone, Copy, PartialEq, Eq, Debug, Default)]
pub struct Shell {
    /// Its lowest point.
    pub low: u32,
    /// How many points it has.
    pub points: u32,
    /// How many triangles it has.
    pub triangles: u32,
    /// 1 if any of its points is marked, and so on an outer face, else 0.
    pub touches: u32,
    /// Six times its volume in cubes of 1/256 of a voxel, negative for a void inside metal.
    pub volume: i64,
    /// The least x of its points.
    pub least_x: u32,
    /// The greatest x of its points.
    pub greatest_x: u32,
    /// The least y of its points.
    pub least_y: u32,
    /// The greatest y of its points.
    pub greatest_y: u32,
    /// The least z of its points.
    pub least_z: u32,
    /// The greatest z of its points.
    pub greatest_z: u32,
}

// As the C header says of the record.
const _: () = assert!(size_of::<Shell>() == 48);

/// What the shell list answers: number 0 and the count of shells if granted, else the refusal's number and count 0.
#[derive(Clone, Copy, PartialEq, Eq, Debug)]
pub struct Listed {
    /// 0 if granted, else the refusal's number.
    pub number: u32,
    /// How many shells there are.
    pub shells: u32,
}

/// The shells of a mesh: each point's shell number into `numbers`, of length V, and a record a shell from the front of `records`, with a work
/// room of exactly [`shells_work`] numbers. Refusals: 6, 7, 8, 9, 3, 11.
pub fn shells(
    mesh: Mesh<'_>,
    numbers: &mut [u32],
    records: &mut [Shell],
    work: &mut [u32],
) -> Listed {
    let mut shells = 0;
    let number = c::shells(
        mesh.points,
        mesh.triangles,
        mesh.marks,
        numbers,
        records,
        work,
        &mut shells,
    );
    Listed { number, shells }
}

/// What the writer answers: number 0 and the length of the text if granted, else the refusal's number and length 0.
#[derive(Clone, Copy, PartialEq, Eq, Debug)]
pub struct Written {
    /// 0 if granted, else the refusal's number.
    pub number: u32,
    /// How many bytes the text has.
    pub length: usize,
}

/// The text of a mesh, its grid edges and a record a shell, as lines M, V, T and S, to the front of `text`, of which the rest stays; a room of
/// [`text_room`] bytes is long enough. Only lengths are checked, and what the lists hold is written as it stands. Refusals: 6, 3.
pub fn write(mesh: Mesh<'_>, edges: &[u32], records: &[Shell], text: &mut [u8]) -> Written {
    let mut length = 0;
    let number = c::write(
        mesh.points,
        edges,
        mesh.marks,
        mesh.triangles,
        records,
        text,
        &mut length,
    );
    Written { number, length }
}

/// What line 1 of a mesh's text says: number 0 and the three counts if granted, else number 15 and zero counts.
#[derive(Clone, Copy, PartialEq, Eq, Debug)]
pub struct Counted {
    /// 0 if granted, else the refusal's number.
    pub number: u32,
    /// How many points the text has.
    pub points: u32,
    /// How many triangles the text has.
    pub triangles: u32,
    /// How many shells the text has.
    pub shells: u32,
}

/// How many points, triangles and shells a mesh's text has by its line 1, each a number below 2^32, so that the rooms of [`read`] can be lent. What
/// follows line 1 is not looked at. Refusal: 15.
pub fn read_counts(text: &[u8]) -> Counted {
    // The call sets all three, whatever it answers.
    let mut counts = [u32::MAX; 3];
    let number = c::read_counts(text, &mut counts);
    let [points, triangles, shells] = counts;
    Counted {
        number,
        points,
        triangles,
        shells,
    }
}

/// What the reader answers: number 0 and the three counts if granted, else the refusal's number and zero counts.
#[derive(Clone, Copy, PartialEq, Eq, Debug)]
pub struct Read {
    /// 0 if granted, else the refusal's number.
    pub number: u32,
    /// The line that is refused with 15, counted from 1; 0 with every other number.
    pub line: u64,
    /// How many points there are.
    pub points: u32,
    /// How many triangles there are.
    pub triangles: u32,
    /// How many shells there are.
    pub shells: u32,
}

/// A mesh read back from its text, as [`write()`] writes it, into lent rooms: its lists to the front of `rooms`, and a record a shell to the front of
/// `records`. It takes exactly the texts of meshes that pass 7 to 9, with rising edge numbers and their own records. Refusals: 15 for line 1, 4, 5,
/// 11, 3, 15 for the first other line that is bad, 7, 8, 9, 16.
pub fn read(text: &[u8], rooms: Rooms<'_>, records: &mut [Shell]) -> Read {
    // The call sets all four, whatever it answers.
    let (mut line, mut counts) = (u64::MAX, [u32::MAX; 3]);
    let number = c::read(
        text,
        rooms.points,
        rooms.edges,
        rooms.marks,
        rooms.triangles,
        records,
        rooms.work,
        &mut line,
        &mut counts,
    );
    let [points, triangles, shells] = counts;
    Read {
        number,
        line,
        points,
        triangles,
        shells,
    }
}

/// Corner areas, one a point, and mean curvature vectors, three numbers a point, into lent rooms of exactly those lengths. Answers 0 if granted,
/// else the refusal's number: 6, 7, 8, 9, 3.
pub fn curvature(mesh: Mesh<'_>, areas: &mut [f64], vectors: &mut [f64]) -> u32 {
    c::curvature(mesh.points, mesh.triangles, mesh.marks, areas, vectors)
}

/// One point's answer as the C side tells it: kind 0 open, 1 flat, 2 bent, and area, x, y, z, of which +0.0 stands for what a kind does not have.
/// Answers 0 if granted, else the refusal's number, 6, 14 or 9, and all five stay.
pub fn answer(
    marks: &[u8],
    areas: &[f64],
    vectors: &[f64],
    point: u32,
    kind: &mut u32,
    values: &mut [f64; 4],
) -> u32 {
    c::answer(marks, areas, vectors, point, kind, values)
}
