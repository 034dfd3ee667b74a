//! The summary: figures, its order, refusals, rooms, and a second way to the
//! same list.

use crate::tools::{random_grid, random_grid_of, Grid, Random};
use reference::summary::{summary, summary_of, Block, SUMMARY};

/// The two numbers of a block without a cube of the grid.
const OUTSIDE: [u16; 2] = [65_535, 0];

/// A room of this length, full of values that stay different from a summary's.
fn guarded(length: usize) -> Vec<u16> {
    (0..length).map(|i| 40_000 + (i % 9973) as u16).collect()
}

/// Builds the summary of a grid in this room; returns the refusal number.
fn build(grid: &Grid, room: &mut [u16]) -> u32 {
    let [nx, ny, nz] = grid.sides;
    summary(nx, ny, nz, &grid.samples, room)
}

/// The summary that the call leaves in a room.
fn built(grid: &Grid) -> Vec<u16> {
    let mut room = guarded(SUMMARY);
    assert_eq!(build(grid, &mut room), 0);
    room
}

/// A call is refused so and leaves a room of this length.
fn assert_refused(grid: &Grid, length: usize, number: u32) {
    let before = guarded(length);
    let mut after = before.clone();
    assert_eq!(build(grid, &mut after), number);
    assert!(after == before, "a refusal leaves the room: {number}");
}

/// All blocks, from the whole block down, x fastest in a level, then y, then z.
fn all_blocks() -> Vec<Block> {
    let mut blocks = Vec::new();
    for level in 0..=6 {
        let a_side = 1 << level;
        for z in 0..a_side {
            for y in 0..a_side {
                for x in 0..a_side {
                    let place = [x, y, z];
                    blocks.push(Block { level, place });
                }
            }
        }
    }
    blocks
}

/// A second way to a block's two numbers: its cubes of the grid, if there are
/// any, are a box, and so are the samples at their corners.
fn second_way(grid: &Grid, block: Block) -> [u16; 2] {
    let cubes_a_side = [64, 32, 16, 8, 4, 2, 1][block.level as usize];
    let [nx, ny, _] = grid.sides;
    let mut box_of_samples = Vec::new();
    for (place, side) in block.place.into_iter().zip(grid.sides) {
        let first_cube = place * cubes_a_side;
        let last_cube = (first_cube + cubes_a_side - 1).min(side - 2);
        if first_cube > last_cube {
            return OUTSIDE;
        }
        box_of_samples.push(first_cube..=last_cube + 1);
    }
    let mut samples = Vec::new();
    for z in box_of_samples[2].clone() {
        for y in box_of_samples[1].clone() {
            for x in box_of_samples[0].clone() {
                samples.push(grid.samples[(x + nx * (y + ny * z)) as usize]);
            }
        }
    }
    [
        *samples.iter().min().unwrap(),
        *samples.iter().max().unwrap(),
    ]
}

/// The list of a grid is that of the second way.
fn assert_second_way(grid: &Grid) {
    let list = built(grid);
    let wanted: Vec<u16> = all_blocks()
        .into_iter()
        .flat_map(|block| second_way(grid, block))
        .collect();
    assert!(list == wanted, "sides {:?}", grid.sides);
    assert!(summary_of(grid.sides, &grid.samples) == wanted);
}

/// Block (x, y, z) of level k has its least at 2·((8^k − 1)/7 + x + 2^k·(y +
/// 2^k·z)).
#[test]
fn blocks_stand_one_after_the_other() {
    let blocks = all_blocks();
    assert_eq!(2 * blocks.len(), 599_186);
    assert_eq!(SUMMARY, 599_186);
    for (number, block) in blocks.into_iter().enumerate() {
        assert_eq!(block.start(), 2 * number);
        let Block { level, place } = block;
        let [x, y, z] = place.map(|coordinate| coordinate as usize);
        let (k, before) = (1 << level, (8_usize.pow(level) - 1) / 7);
        assert_eq!(block.start(), 2 * (before + x + k * (y + k * z)));
    }
    let starts = [0, 1, 2, 3, 4, 5, 6].map(|level| Block::around([0; 3], level).start());
    assert_eq!(starts, [0, 2, 18, 146, 1170, 9362, 74_898]);
}

/// The eight halves of a block are the blocks of the next level whose cubes are
/// the block's, and each block but the whole one is a half of one block.
#[test]
fn halves_are_the_blocks_of_the_next_level() {
    let mut halves = Vec::new();
    for block in all_blocks() {
        if block.is_cube() {
            assert_eq!(Block::around(block.place, 6), block);
            continue;
        }
        let side = 64 >> block.level;
        for half in block.halves() {
            assert_eq!(half.level, block.level + 1);
            let first_cube = half.place.map(|coordinate| coordinate * side / 2);
            let last_cube = first_cube.map(|coordinate| coordinate + side / 2 - 1);
            for cube in [first_cube, last_cube] {
                assert_eq!(Block::around(cube, block.level), block);
                assert_eq!(Block::around(cube, half.level), half);
            }
            halves.push(half.start());
        }
    }
    halves.sort_unstable();
    let wanted: Vec<usize> = (1..SUMMARY / 2).map(|number| 2 * number).collect();
    assert!(halves == wanted);
}

/// A single cube at the first place: the first block of each level has its two
/// numbers, and every other block none.
#[test]
fn worked_example_summary() {
    let list = built(&Grid::above_where([2; 3], |at| at == [0; 3]));
    for block in all_blocks() {
        let first = block.place == [0; 3];
        let wanted = if first { [0, 100] } else { OUTSIDE };
        assert_eq!(block.numbers(&list), wanted);
    }
}

/// The single cubes (0, 0, 0) to (4, 0, 0) of 5×4×3 with sample s worth 7s mod
/// 11. The last of them is not in the grid.
#[test]
fn single_cubes_in_a_row() {
    let mut grid = Grid::filled([5, 4, 3], 5, 0);
    for (s, sample) in (0..).zip(&mut grid.samples) {
        *sample = 7 * s % 11;
    }
    let list = built(&grid);
    let row = [0, 1, 2, 3, 4].map(|x| Block::around([x, 0, 0], 6).numbers(&list));
    assert_eq!(row, [[0, 10], [0, 9], [0, 10], [1, 10], OUTSIDE]);
    assert_eq!(list[74_898..74_908], [0, 10, 0, 9, 0, 10, 1, 10, 65_535, 0]);
    assert_eq!(list[..2], [0, 10]);
    assert_second_way(&grid);
}

/// Neighbouring blocks share samples: sample (2, 0, 0) is a corner of cubes 1 and
/// 2, which are of two blocks of level 5.
#[test]
fn a_sample_is_in_every_block_that_it_is_a_corner_of() {
    let list = built(&Grid::above_where([4, 2, 2], |at| at == [2, 0, 0]));
    let numbers = |x: u32, level: u32| {
        let place = [x, 0, 0];
        Block { level, place }.numbers(&list)
    };
    let cubes = [0, 1, 2, 3].map(|x| numbers(x, 6));
    assert_eq!(cubes, [[0, 0], [0, 100], [0, 100], OUTSIDE]);
    assert_eq!(
        [0, 1, 2].map(|x| numbers(x, 5)),
        [[0, 100], [0, 100], OUTSIDE]
    );
    assert_eq!([0, 1].map(|x| numbers(x, 4)), [[0, 100], OUTSIDE]);
}

/// Cube 62 is the last of side 64, and block 31 of level 5 has no other cube of
/// the grid.
#[test]
fn the_last_cube_of_side_64() {
    for axis in 0..3 {
        let mut sides = [2; 3];
        sides[axis] = 64;
        let list = built(&Grid::above_where(sides, |at| at[axis] == 63));
        let numbers = |coordinate: u32, level: u32| {
            let mut place = [0; 3];
            place[axis] = coordinate;
            Block { level, place }.numbers(&list)
        };
        let cubes = [0, 61, 62, 63].map(|coordinate| numbers(coordinate, 6));
        assert_eq!(cubes, [[0, 0], [0, 0], [0, 100], OUTSIDE]);
        let pairs = [0, 30, 31].map(|coordinate| numbers(coordinate, 5));
        assert_eq!(pairs, [[0, 0], [0, 0], [0, 100]]);
        assert_eq!([0, 1].map(|x| numbers(x, 1)), [[0, 0], [0, 100]]);
        assert_eq!(numbers(0, 0), [0, 100]);
    }
}

/// Samples of 65,535 and of 0 give cubes of the grid whose numbers differ from
/// those of a block outside it.
#[test]
fn the_least_and_the_greatest_sample() {
    for sample in [0, 65_535] {
        let list = built(&Grid::filled([3, 4, 2], 1, sample));
        for block in all_blocks() {
            let side = 64 >> block.level;
            let [x, y, z] = block.place.map(|coordinate| coordinate * side);
            let has_cube = x + 1 < 3 && y + 1 < 4 && z + 1 < 2;
            let wanted = if has_cube { [sample; 2] } else { OUTSIDE };
            assert_eq!(block.numbers(&list), wanted);
        }
    }
}

#[test]
fn random_grids_agree_with_the_second_way() {
    let mut random = Random::new(21);
    for _ in 0..40 {
        assert_second_way(&random_grid(&mut random));
    }
    for _ in 0..10 {
        let sides = [0; 3].map(|_| 2 + random.below(63));
        assert_second_way(&random_grid_of(&mut random, sides));
    }
    for sides in [[64, 64, 64], [64, 2, 33], [2, 63, 64], [32, 33, 34]] {
        assert_second_way(&random_grid_of(&mut random, sides));
    }
}

/// A block's numbers are the least and the greatest of its halves' numbers.
#[test]
fn a_block_has_the_extremes_of_its_halves() {
    let mut random = Random::new(22);
    for sides in [[7, 2, 5], [33, 17, 9], [64, 64, 64]] {
        let grid = random_grid_of(&mut random, sides);
        let list = built(&grid);
        for block in all_blocks().into_iter().filter(|block| !block.is_cube()) {
            let of_halves = block.halves().map(|half| half.numbers(&list));
            let least = of_halves.iter().map(|numbers| numbers[0]).min().unwrap();
            let greatest = of_halves.iter().map(|numbers| numbers[1]).max().unwrap();
            assert_eq!(block.numbers(&list), [least, greatest]);
        }
        let extremes = [grid.samples.iter().min(), grid.samples.iter().max()];
        assert_eq!(list[..2], extremes.map(|sample| *sample.unwrap()));
    }
}

#[test]
fn the_room_has_exactly_599_186_numbers() {
    let grid = Grid::centre();
    for length in [0, 2, 54, 599_184, 599_185, 599_187, 599_188] {
        assert_refused(&grid, length, 3);
    }
    let mut room = guarded(599_186);
    assert_eq!(build(&grid, &mut room), 0);
}

#[test]
fn samples_are_as_many_as_the_sides_say() {
    for count in [0, 26, 28, 54] {
        let mut grid = Grid::centre();
        grid.samples.resize(count, 0);
        for length in [599_186, 599_185, 0] {
            assert_refused(&grid, length, 2);
        }
    }
}

#[test]
fn sides_are_2_to_64() {
    for axis in 0..3 {
        for side in [0, 1, 65, 66, 65_536, u32::MAX] {
            let mut grid = Grid::filled([2, 3, 2], 50, 0);
            grid.sides[axis] = side;
            for length in [599_186, 599_187, 0] {
                assert_refused(&grid, length, 1);
            }
        }
        for side in [2, 64] {
            let mut sides = [3; 3];
            sides[axis] = side;
            assert_second_way(&Grid::above_where(sides, |at| at[axis] == side - 1));
        }
    }
    for sides in [[1; 3], [65; 3], [0; 3], [u32::MAX; 3], [65_536, 65_536, 2]] {
        let (grey, samples) = (1, vec![0; 8]);
        let grid = Grid {
            sides,
            grey,
            samples,
        };
        assert_refused(&grid, 599_186, 1);
    }
    // As many samples as the sides say.
    assert_refused(&Grid::filled([1, 2, 2], 1, 0), 599_186, 1);
    assert_refused(&Grid::filled([65, 2, 2], 1, 0), 599_186, 1);
}
