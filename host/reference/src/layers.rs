//! Layers as they come off the scanner: opening, one call a layer, closing.
//!
//! "Offer a form that takes whole z layers in order, as the scanner delivers
//! them, and holds two. After each layer it hands out the finished points of the
//! layer below and the triangles of the cubes between, naming points by grid
//! edge number; a closing call hands out the last layer's points."
//!
//! Where document 02 leaves something open, this module reads it so:
//!
//! - The state is a lent room of fixed length, 8 + 64·64 = 4,104 numbers. They
//!   are nx, ny, nz, the grey value, the layers taken, closed or not (0 is open,
//!   any other number closed), the points and the triangles so far, and then the
//!   kept layer, sample (x, y) as number x + nx·y of it.
//! - Another length is 3: after 1 in opening, before 1 in a layer and in closing,
//!   since nothing can be read from it. The state is no work room: no refusal
//!   makes it zero.
//! - A state that no opening left is answered like any other. It is refused with
//!   1 if its sides are none or its grey value is over 65,535. Every other
//!   number is taken as it stands, a kept sample by its lowest 16 bits.
//! - "the finished points of the layer below" are those of all crossed grid
//!   edges that leave a sample of that layer, along z up to the new layer too.
//!   The first layer has none below and hands out nothing; 4 and 5 are looked
//!   at all the same.
//! - "Limits on points and triangles hold for the running totals": 4 if the
//!   points so far and this call's are more than 250,000, or this call's more
//!   than their rooms hold, and 5 the same of triangles. Closing hands out no
//!   triangles and never gives 5.
//! - "one too many": nz layers or more were taken, or the run is closed.
//!   "closing early": fewer than nz layers were taken.
//! - A granted opening writes the whole room, with 0 wherever nothing is said
//!   yet. A granted layer changes the layers taken, both totals and the first
//!   nx·ny numbers of the kept layer; a granted closing changes closed, to 1,
//!   and the points so far. "A refused call leaves the state as before it", and
//!   every other room.

use crate::extract::{point_room, put_points, put_triangles, refused, triangle_room, Extracted};
use crate::grid::{are_sides, Grid, MOST_SIDE};
use crate::mesh::{MOST_POINTS, MOST_TRIANGLES};

/// Where nx, ny and nz stand in a state.
pub const SIDES: [usize; 3] = [0, 1, 2];

/// Where the grey value stands in a state.
pub const GREY: usize = 3;

/// Where the number of layers taken stands in a state.
pub const TAKEN: usize = 4;

/// Where a state says whether the run is closed.
pub const CLOSED: usize = 5;

/// Where the number of points so far stands in a state.
pub const POINTS: usize = 6;

/// Where the number of triangles so far stands in a state.
pub const TRIANGLES: usize = 7;

/// Where the kept layer starts in a state.
pub const KEPT: usize = 8;

/// The length of a state.
pub const STATE: usize = KEPT + (MOST_SIDE * MOST_SIDE) as usize;

/// What a state says, its sides and its grey value being such.
struct Run {
    sides: [u32; 3],
    grey: u16,
    taken: u32,
    closed: bool,
    points: u32,
    triangles: u32,
    /// The nx·ny samples of the kept layer.
    kept: Vec<u16>,
}

impl Run {
    /// Reads a state. Refusals 3 and 1, in this order.
    fn of(state: &[u32]) -> Result<Run, u32> {
        // "a work or result room of fixed length has another length"
        if state.len() != STATE {
            return Err(3);
        }
        let sides = SIDES.map(|place| state[place]);
        if !are_sides(sides) {
            return Err(1);
        }
        let Ok(grey) = u16::try_from(state[GREY]) else {
            return Err(1);
        };
        Ok(Run {
            sides,
            grey,
            taken: state[TAKEN],
            closed: state[CLOSED] != 0,
            points: state[POINTS],
            triangles: state[TRIANGLES],
            kept: state[KEPT..KEPT + layer_length(sides)]
                .iter()
                .map(|&number| lowest_16_bits(number))
                .collect(),
        })
    }

    /// Whether the points so far and so many more exceed 250,000, or those more
    /// exceed their room.
    fn too_many_points(&self, more: usize, room: usize) -> bool {
        total(self.points, more) > MOST_POINTS as u64 || more > room
    }

    /// The same of triangles and 500,000.
    fn too_many_triangles(&self, more: usize, room: usize) -> bool {
        total(self.triangles, more) > MOST_TRIANGLES as u64 || more > room
    }
}

/// The number of samples in a layer.
fn layer_length([nx, ny, _]: [u32; 3]) -> usize {
    (nx * ny) as usize
}

fn lowest_16_bits(number: u32) -> u16 {
    (number & u32::from(u16::MAX)) as u16
}

/// A running total with so many more, as a whole number that does not wrap.
fn total(so_far: u32, more: usize) -> u64 {
    u64::from(so_far) + more as u64
}

/// Opens a run; returns the refusal number, 0 if granted.
///
/// Refusals: 1, "a side is below 2 or above 64", then 3. A refusal leaves the
/// state room, a granted opening writes all of it.
pub fn open(nx: u32, ny: u32, nz: u32, grey: u16, state: &mut [u32]) -> u32 {
    let sides = [nx, ny, nz];
    if !are_sides(sides) {
        return 1;
    }
    if state.len() != STATE {
        return 3;
    }
    state.fill(0);
    for (place, side) in SIDES.into_iter().zip(sides) {
        state[place] = side;
    }
    state[GREY] = u32::from(grey);
    0
}

/// Takes the next layer. "After each layer it hands out the finished points of
/// the layer below and the triangles of the cubes between, naming points by grid
/// edge number".
///
/// They stand in front of the lent rooms; the rest of each room stays. Refusals:
/// 3, 1, "17 for a layer of wrong length or one too many, [..] then 4, 5". A
/// refusal gives zero counts and leaves every room and the state.
pub fn next(
    layer: &[u16],
    state: &mut [u32],
    points: &mut [u32],
    edges: &mut [u32],
    marks: &mut [u8],
    triangles: &mut [u32],
) -> Extracted {
    let run = match Run::of(state) {
        Ok(run) => run,
        Err(number) => return refused(number),
    };
    let [_, _, nz] = run.sides;
    // "a layer of wrong length or one too many"
    if layer.len() != layer_length(run.sides) || run.taken >= nz || run.closed {
        return refused(17);
    }

    let (mut point_list, mut triangle_list) = (Vec::new(), Vec::new());
    // The kept layer is the one below, if there is one.
    if let Some(below) = run.taken.checked_sub(1) {
        let grid = Grid {
            sides: run.sides,
            grey: run.grey,
            samples: &[&run.kept, layer].concat(),
            lowest: below,
        };
        point_list = grid.layer_points(below);
        triangle_list = grid.layer_triangles(below);
    }
    if run.too_many_points(point_list.len(), point_room(points, edges, marks)) {
        return refused(4);
    }
    if run.too_many_triangles(triangle_list.len(), triangle_room(triangles)) {
        return refused(5);
    }

    put_points(&point_list, points, edges, marks);
    put_triangles(&triangle_list, triangles);
    let answer = Extracted {
        number: 0,
        points: point_list.len() as u32,
        triangles: triangle_list.len() as u32,
    };
    state[TAKEN] += 1;
    state[POINTS] += answer.points;
    state[TRIANGLES] += answer.triangles;
    for (kept, &sample) in state[KEPT..].iter_mut().zip(layer) {
        *kept = u32::from(sample);
    }
    answer
}

/// Closes a run: "a closing call hands out the last layer's points." Returns the
/// refusal number, 0 if granted, and the number of points, 0 if refused.
///
/// They stand in front of the lent rooms; the rest of each room stays. Refusals:
/// 3, 1, "18 for closing early or a second time, then 4". A refusal leaves every
/// room and the state.
pub fn close(
    state: &mut [u32],
    points: &mut [u32],
    edges: &mut [u32],
    marks: &mut [u8],
) -> (u32, u32) {
    let run = match Run::of(state) {
        Ok(run) => run,
        Err(number) => return (number, 0),
    };
    let [_, _, nz] = run.sides;
    // "closing early or a second time"
    if run.taken < nz || run.closed {
        return (18, 0);
    }

    let last = nz - 1;
    let grid = Grid {
        sides: run.sides,
        grey: run.grey,
        samples: &run.kept,
        lowest: last,
    };
    let point_list = grid.layer_points(last);
    if run.too_many_points(point_list.len(), point_room(points, edges, marks)) {
        return (4, 0);
    }

    put_points(&point_list, points, edges, marks);
    let point_count = point_list.len() as u32;
    state[CLOSED] = 1;
    state[POINTS] += point_count;
    (0, point_count)
}

/// Points and triangles as lists.
#[derive(Clone, PartialEq, Eq, Debug, Default)]
pub struct Surface {
    /// Three coordinates of each point.
    pub points: Vec<u32>,
    /// The grid edge of each point.
    pub edges: Vec<u32>,
    /// The mark of each point.
    pub marks: Vec<u8>,
    /// Three corners of each triangle: grid edges as a call hands them out,
    /// numbers of points in a mesh.
    pub triangles: Vec<u32>,
}

/// "Put together and renumbered, it is the whole extractor's mesh."
///
/// `handed_out` is what each call of a run has handed out, in order, closing
/// included. Edges are handed out in rising order, so a corner's point has the
/// number of its edge's rank.
pub fn put_together(handed_out: &[Surface]) -> Surface {
    let mut whole = Surface::default();
    for part in handed_out {
        whole.points.extend(&part.points);
        whole.edges.extend(&part.edges);
        whole.marks.extend(&part.marks);
        whole.triangles.extend(&part.triangles);
    }
    for corner in &mut whole.triangles {
        let rank = whole.edges.binary_search(corner);
        *corner = rank.expect("the point of a corner is handed out") as u32;
    }
    whole
}
