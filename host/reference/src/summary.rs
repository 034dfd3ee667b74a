//! The summary of a grid's samples, kept beside them for [`crate::query`].
//!
//! "Keep beside the samples a summary: a block of 64 cubes a side is halved
//! along each axis down to single cubes, each block with the least and greatest
//! sample of its cubes' corners."
//!
//! Where document 02 leaves something open, this module reads it so:
//!
//! - Cube (x, y, z) has its corners at the samples x to x + 1, y to y + 1 and z
//!   to z + 1. It is in the grid when these are samples of it: x + 1 < nx,
//!   y + 1 < ny, z + 1 < nz. The whole block begins at cube (0, 0, 0).
//! - "its cubes' corners" are the corners of those of its cubes that are in the
//!   grid, and nothing else. "Blocks wholly outside the grid" are those without
//!   such a cube.
//! - The summary has 599,186 numbers whatever the sides are. Its room is one of
//!   fixed length, and another length is 3. It is no work room: no refusal makes
//!   it zero.

use crate::cube;
use crate::extract::check_samples;
use crate::grid::{cubes, sample_number, shifted};

/// "a block of 64 cubes a side": the side of the whole block, in cubes.
pub const WHOLE_SIDE: u32 = 64;

/// The level of the single cubes. The whole block has level 0.
pub const CUBE_LEVEL: u32 = 6;

/// "The summary holds two numbers a block, [..] 599,186 in all": its length.
pub const SUMMARY: usize = 599_186;

/// The two numbers of "Blocks wholly outside the grid", least first.
const OUTSIDE: [u16; 2] = [65_535, 0];

/// One block. Level k, from 0 to 6, has 2^k blocks a side, each of 64 / 2^k
/// cubes a side.
#[derive(Clone, Copy, PartialEq, Eq, Debug)]
pub struct Block {
    /// How often the whole block is halved along each axis to give this one.
    pub level: u32,
    /// Its x, y and z among the blocks of its level. For a single cube they are
    /// the cube's.
    pub place: [u32; 3],
}

impl Block {
    /// The whole block.
    pub const WHOLE: Block = Block {
        level: 0,
        place: [0, 0, 0],
    };

    /// The block of this level that the cube is in.
    pub fn around(cube: [u32; 3], level: u32) -> Block {
        let side = WHOLE_SIDE >> level;
        Block {
            level,
            place: cube.map(|coordinate| coordinate / side),
        }
    }

    /// Whether the block is a single cube.
    pub fn is_cube(self) -> bool {
        self.level == CUBE_LEVEL
    }

    /// "its eight halves". A single cube has none.
    pub fn halves(self) -> [Block; 8] {
        assert!(!self.is_cube(), "a single cube is never opened");
        let first = self.place.map(|coordinate| 2 * coordinate);
        [0, 1, 2, 3, 4, 5, 6, 7].map(|corner| Block {
            level: self.level + 1,
            place: shifted(first, cube::corner_place(corner)),
        })
    }

    /// Where the block's least stands in the summary; its greatest follows.
    ///
    /// "two numbers a block, least first, from the whole block down, each level
    /// x fastest, then y, z".
    pub fn start(self) -> usize {
        let blocks_a_side = 1 << self.level;
        let in_levels_before: u32 = (0..self.level).map(|level| 8_u32.pow(level)).sum();
        let [x, y, z] = self.place;
        let in_level_before = x + blocks_a_side * (y + blocks_a_side * z);
        2 * (in_levels_before + in_level_before) as usize
    }

    /// The block's two numbers, least first, out of a summary.
    pub fn numbers(self, summary: &[u16]) -> [u16; 2] {
        let start = self.start();
        [summary[start], summary[start + 1]]
    }
}

/// The samples at the eight corners of a cube of the grid.
fn corner_samples(sides: [u32; 3], samples: &[u16], at: [u32; 3]) -> [u16; 8] {
    [0, 1, 2, 3, 4, 5, 6, 7].map(|corner| {
        let place = shifted(at, cube::corner_place(corner));
        samples[sample_number(sides, place) as usize]
    })
}

/// The summary of a grid that is not refused.
///
/// At first every block is without a cube of the grid. Then each cube of the
/// grid widens the block of every level that it is in: "each block with the
/// least and greatest sample of its cubes' corners."
pub fn summary_of(sides: [u32; 3], samples: &[u16]) -> Vec<u16> {
    let mut summary = OUTSIDE.repeat(SUMMARY / 2);
    for at in cubes(sides) {
        let corners = corner_samples(sides, samples, at);
        for level in 0..=CUBE_LEVEL {
            let start = Block::around(at, level).start();
            for sample in corners {
                summary[start] = summary[start].min(sample);
                summary[start + 1] = summary[start + 1].max(sample);
            }
        }
    }
    summary
}

/// Builds the summary of the samples in the lent room; returns the refusal
/// number, 0 if granted.
///
/// "Refusals: building it 1, 2, 3". A refusal leaves the room, a granted call
/// writes all of it.
pub fn summary(nx: u32, ny: u32, nz: u32, samples: &[u16], room: &mut [u16]) -> u32 {
    let sides = [nx, ny, nz];
    let number = check_samples(sides, samples.len());
    if number != 0 {
        return number;
    }
    // "a work or result room of fixed length has another length"
    if room.len() != SUMMARY {
        return 3;
    }
    room.copy_from_slice(&summary_of(sides, samples));
    0
}
