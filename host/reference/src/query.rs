//! Trying many grey values: the mesh of a grid whose summary is lent.
//!
//! "In a query a block is opened into its eight halves only if its least sample
//! is below the grey value and its greatest isn't; a single cube is never
//! opened. The mesh is the plain one, in the plain order."
//!
//! Where document 02 leaves something open, this module reads it so:
//!
//! - A query looks at the whole block, and at the eight halves of every block
//!   that it opens. It looks at no other block.
//! - "a query as the extractor, and 19 after 3": 1, 2, 3, 19, 4, 5. Number 3 is
//!   the length of the work room alone. The summary "isn't that of the samples"
//!   if it has another length or if any one number differs, whether or not the
//!   query would look at it.
//! - 19, 4 and 5 come after 3, so they make the work room zero, as a granted
//!   query does. Every refusal leaves the other rooms and gives three zero
//!   counts.

use std::collections::VecDeque;

use crate::cube;
use crate::extract::{check, put_mesh};
use crate::grid::{cubes, Grid};
use crate::summary::{summary_of, Block};

/// What a query returns.
#[derive(Clone, Copy, PartialEq, Eq, Debug)]
pub struct Queried {
    /// The refusal number, 0 if granted.
    pub number: u32,
    /// The number of points, 0 if refused.
    pub points: u32,
    /// The number of triangles, 0 if refused.
    pub triangles: u32,
    /// The number of blocks looked at, 0 if refused.
    pub blocks: u32,
}

/// "A refusal gives the number and zero counts".
fn refused(number: u32) -> Queried {
    Queried {
        number,
        points: 0,
        triangles: 0,
        blocks: 0,
    }
}

/// "Each block looked at is one step, given its two numbers and the grey value
/// and no samples". Whether "its least sample is below the grey value and its
/// greatest isn't".
pub fn step(least: u16, greatest: u16, grey: u16) -> bool {
    least < grey && greatest >= grey
}

/// The steps of a query.
#[derive(Clone, PartialEq, Eq, Debug, Default)]
pub struct Steps {
    /// The blocks looked at, one a step, in the order of the steps.
    pub looked_at: Vec<Block>,
    /// Those of them that are opened.
    pub opened: Vec<Block>,
    /// The "cubes that a step found crossed", "x fastest, then y, then z".
    pub found: Vec<[u32; 3]>,
}

/// Looks at the whole block and at what it is opened into, level by level. The
/// summary has its length.
///
/// "a block is opened into its eight halves only if" its [`step`] says so; "a
/// single cube is never opened": of it the step says that it is crossed.
pub fn look(summary: &[u16], grey: u16) -> Steps {
    let mut steps = Steps::default();
    let mut waiting = VecDeque::from([Block::WHOLE]);
    while let Some(block) = waiting.pop_front() {
        steps.looked_at.push(block);
        let [least, greatest] = block.numbers(summary);
        if !step(least, greatest, grey) {
            continue;
        }
        if block.is_cube() {
            steps.found.push(block.place);
        } else {
            steps.opened.push(block);
            waiting.extend(block.halves());
        }
    }
    steps.found.sort_by_key(|&[x, y, z]| [z, y, x]);
    steps
}

/// The crossed cubes of a grid that is not refused, told from its samples alone,
/// "x fastest, then y, then z".
pub fn crossed_cubes(sides: [u32; 3], grey: u16, samples: &[u16]) -> Vec<[u32; 3]> {
    let grid = Grid::whole(sides, grey, samples);
    cubes(sides).filter(|&at| grid.is_crossed(at)).collect()
}

/// "The mesh is the plain one, in the plain order. [..] triangles are made only
/// for cubes that a step found crossed. The number of blocks looked at is
/// reported".
///
/// Rooms and both other counts are as the extractor leaves them.
#[allow(clippy::too_many_arguments)]
pub fn query(
    nx: u32,
    ny: u32,
    nz: u32,
    grey: u16,
    samples: &[u16],
    summary: &[u16],
    points: &mut [u32],
    edges: &mut [u32],
    marks: &mut [u8],
    triangles: &mut [u32],
    work: &mut [u32],
) -> Queried {
    let sides = [nx, ny, nz];
    let number = check(sides, samples.len(), work.len());
    if number != 0 {
        return refused(number);
    }
    work.fill(0);
    // "19 after 3 if the lent summary isn't that of the samples"
    if summary != summary_of(sides, samples) {
        return refused(19);
    }

    let steps = look(summary, grey);
    let grid = Grid::whole(sides, grey, samples);
    let point_list = grid.points();
    let triangle_list = grid.triangles_of(steps.found.into_iter(), &point_list, &cube::CASES);
    let mesh = put_mesh(&point_list, &triangle_list, points, edges, marks, triangles);
    if mesh.number != 0 {
        return refused(mesh.number);
    }
    Queried {
        number: 0,
        points: mesh.points,
        triangles: mesh.triangles,
        blocks: steps.looked_at.len() as u32,
    }
}
