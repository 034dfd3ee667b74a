//! The summary of a grid's samples and queries by it, against the reference: answers, and every place of every room. A query is what the extractor is.

#[path = "tools/grids.rs"]
mod grids;
#[path = "tools/queries.rs"]
mod queries;
mod tools;

use std::collections::BTreeMap;

use grids::{Grid, Holes};
use queries::{build_in, built, crossed, refused, refuses_summary, same};
use reference::summary::Block;
use tools::{count, first_of, roomy, Lengths, Seed};
use viewer::{Queried, SUMMARY_LENGTH};

/// The two numbers of a block without a cube of the grid.
const OUTSIDE: [u16; 2] = [65_535, 0];

/// Rooms for nothing but the work.
fn none(sides: [u32; 3]) -> Lengths {
    Lengths {
        points: 0,
        edges: 0,
        marks: 0,
        triangles: 0,
        work: 3 * count(sides),
    }
}

/// The rooms that a grid's mesh fills to the last place.
fn exact(grid: &Grid) -> Lengths {
    let mesh = viewer::Surface::extract(grid.sides, grid.grey, &grid.samples).unwrap();
    Lengths {
        points: mesh.points.len(),
        edges: mesh.edges.len(),
        marks: mesh.marks.len(),
        triangles: mesh.triangles.len(),
        work: 3 * count(grid.sides),
    }
}

/// The summary of a grid and a query by it, with rooms to spare.
fn tried(grid: &Grid) -> Queried {
    same(grid, &built(grid), roomy(grid.sides))
}

/// How many blocks a granted query looks at, and how many cubes are crossed.
fn figures(grid: &Grid) -> (u32, usize) {
    let found = tried(grid);
    assert_eq!(found.number, 0, "{grid:?}");
    (found.blocks, crossed(grid))
}

#[test]
fn figures_of_one_sample_above() {
    let mut example = grids::example();
    assert_eq!(figures(&example), (49, 1));
    for (grey, wanted) in [(1, (49, 1)), (100, (49, 1)), (101, (1, 0))] {
        example.grey = grey;
        assert_eq!(figures(&example), wanted);
    }
    for grey in [0, 65_535] {
        example.grey = grey;
        assert_eq!(figures(&example), (1, 0));
    }
    assert_eq!(figures(&grids::figure()), (49, 8));
    assert_eq!(figures(&grids::one_above([3, 2, 2], [2, 0, 0])), (49, 1));
    assert_eq!(figures(&grids::one_above([64, 2, 2], [63, 0, 0])), (49, 1));
    assert_eq!(figures(&grids::one_above([2, 64, 2], [0, 63, 0])), (49, 1));
    assert_eq!(figures(&grids::one_above([2, 2, 64], [0, 0, 63])), (49, 1));
}

/// The grid of 5 by 4 by 3 samples in which sample s is 7s mod 11, at grey value 5.
fn mixed() -> Grid {
    Grid {
        sides: [5, 4, 3],
        grey: 5,
        samples: (0..60).map(|s| 7 * s % 11).collect(),
    }
}

#[test]
fn figures_of_many_samples_above() {
    assert_eq!(figures(&grids::checkered([4; 3])), (105, 27));
    let slope = grids::above_where([9; 3], |[x, y, z]| x + y + z >= 12);
    assert_eq!(figures(&slope), (361, 142));
    assert_eq!(figures(&mixed()), (73, 24));
}

/// Every cube has one corner whose coordinates are all odd, so that all blocks are looked at.
#[test]
fn all_blocks_looked_at() {
    let odd = grids::above_where([64; 3], |at| at.iter().all(|c| c % 2 == 1));
    assert_eq!(figures(&odd), (299_593, 250_047));
    assert_eq!(2 * 299_593, SUMMARY_LENGTH);
}

/// The one cube of the example stands first in each level, and every other block is outside.
#[test]
fn the_summary_of_the_example() {
    let summary = built(&grids::example());
    let levels = [0, 2, 18, 146, 1_170, 9_362, 74_898];
    for (at, numbers) in summary.chunks(2).enumerate() {
        let first = levels.contains(&(2 * at));
        assert_eq!(numbers, if first { [0, 100] } else { OUTSIDE }, "{at}");
    }
}

#[test]
fn the_summary_of_a_row_of_cubes() {
    let summary = built(&mixed());
    let cubes = [0, 10, 0, 9, 0, 10, 1, 10, 65_535, 0];
    assert_eq!(summary[74_898..74_908], cubes);
    assert_eq!(summary[..2], [0, 10]);
}

/// The extractor's own grids.
#[test]
fn each_case_as_a_grid_of_one_cube() {
    for (case, grid) in (0..=255).zip(grids::cubes()) {
        let found = tried(&grid);
        assert_eq!(found.triangles, u32::from(reference::cube::count(case)));
        let blocks = if case == 0 || case == 255 { 1 } else { 49 };
        assert_eq!((found.number, found.blocks), (0, blocks));
    }
}

#[test]
fn made_up_grids_of_every_shape_up_to_nine() {
    for grid in grids::up_to_nine() {
        assert_eq!(tried(&grid).number, 0, "{grid:?}");
    }
}

#[test]
fn plateaus_checkerboards_and_the_largest_sides() {
    for grid in grids::plateaus()
        .chain(grids::checkerboards())
        .chain(grids::large())
    {
        assert_eq!(tried(&grid).number, 0, "{grid:?}");
    }
    for grid in grids::even() {
        let found = tried(&grid);
        assert_eq!((found.points, found.triangles, found.blocks), (0, 0, 1));
    }
}

#[test]
fn all_grey_values_of_small_grids() {
    let mut seed = Seed::new(51);
    for sides in grids::shapes(4) {
        let mut grid = grids::made_up(&mut seed, sides, 9);
        let summary = built(&grid);
        for grey in (0..=10).chain([65_534, 65_535]) {
            grid.grey = grey;
            assert_eq!(same(&grid, &summary, roomy(sides)).number, 0);
        }
    }
}

/// Each of 252 samples is another number, so that each grey value parts them in another way.
#[test]
fn all_grey_values_of_different_samples() {
    let mut grid = Grid {
        sides: [7, 6, 6],
        grey: 0,
        samples: (0..252).map(|s| 1 + 95 * s % 252).collect(),
    };
    let summary = built(&grid);
    for grey in 0..=254 {
        grid.grey = grey;
        let found = same(&grid, &summary, roomy(grid.sides));
        let alike = !(2..=252).contains(&grey);
        assert_eq!((found.number, found.blocks == 1), (0, alike), "{grey}");
    }
}

/// A volume of longer sides that has samples of every kind.
fn hills() -> Grid {
    let sides: [u32; 3] = [40, 33, 20];
    let samples = (0..count(sides) as u32).map(|s| {
        let [x, y, z] = [s % 40, s / 40 % 33, s / 1_320];
        (3 * x * x + 5 * y * y + 2 * z * z) as u16
    });
    Grid {
        sides,
        grey: 0,
        samples: samples.collect(),
    }
}

/// The samples and the summary that are lent stay as they are, whatever is asked of them.
#[test]
fn thirty_grey_values_on_one_volume() {
    let mut grid = hills();
    let (summary, samples) = (built(&grid), grid.samples.clone());
    let (lent, lengths) = (summary.clone(), roomy(grid.sides));
    let mut blocks = Vec::new();
    for grey in (0..30).map(|i| 350 * i) {
        grid.grey = grey;
        let found = same(&grid, &lent, lengths);
        assert_eq!(found.number, 0);
        assert_eq!(same(&grid, &lent, lengths), found);
        blocks.push(found.blocks);
    }
    assert!(lent == summary && grid.samples == samples);
    assert_eq!(blocks[0], 1);
    assert!(blocks[1..].iter().all(|&blocks| blocks > 49));
}

#[test]
fn grey_value_0_needs_no_room() {
    for mut grid in [grids::figure(), grids::checkered([64, 2, 3]), mixed()] {
        grid.grey = 0;
        let found = same(&grid, &built(&grid), none(grid.sides));
        let empty = Queried {
            blocks: 1,
            ..refused(0)
        };
        assert_eq!(found, empty);
    }
}

#[test]
fn the_limit_on_points() {
    let [exact, more] = grids::most_points();
    let found = tried(&exact);
    assert_eq!((found.number, found.points), (0, 250_000));
    assert_eq!(tried(&more), refused(4));
    assert_eq!(tried(&grids::checkered([64; 3])), refused(4));
}

#[test]
fn the_limit_on_triangles() {
    let [granted, more] = Holes::new().at_the_limit();
    let found = tried(&granted);
    assert!(found.number == 0 && found.triangles > 499_980);
    assert_eq!(tried(&more), refused(5));
}

/// A query is refused with this number.
fn refuses(grid: &Grid, summary: &[u16], lengths: Lengths, number: u32) {
    let found = same(grid, summary, lengths);
    assert_eq!(found, refused(number), "{grid:?}, {lengths:?}");
}

/// With some of its exact rooms too short, and with longer ones, a mesh is refused or granted as the extractor refuses or grants it.
#[test]
fn rooms_one_too_short_exact_and_long() {
    let mut seed = Seed::new(52);
    for _ in 0..25 {
        let grid = grids::small(&mut seed);
        let (summary, fit) = (built(&grid), exact(&grid));
        if fit.triangles == 0 {
            continue;
        }
        let more = 1 + seed.below(3) as usize;
        let long = Lengths {
            points: fit.points + more,
            edges: fit.edges + more,
            marks: fit.marks + more,
            triangles: fit.triangles + more,
            ..fit
        };
        for granted in [fit, long] {
            assert_eq!(same(&grid, &summary, granted).number, 0);
        }
        for less in [1, 2, 3] {
            let (points, triangles) = (fit.points - less, fit.triangles - less);
            refuses(&grid, &summary, Lengths { points, ..fit }, 4);
            refuses(&grid, &summary, Lengths { points, ..long }, 4);
            refuses(&grid, &summary, Lengths { triangles, ..fit }, 5);
            refuses(&grid, &summary, Lengths { triangles, ..long }, 5);
        }
        let (edges, marks) = (fit.edges - 1, fit.marks - 1);
        refuses(&grid, &summary, Lengths { edges, ..long }, 4);
        refuses(&grid, &summary, Lengths { marks, ..long }, 4);
        refuses(&grid, &summary, none(grid.sides), 4);
    }
}

/// Lengths that no summary has.
const OTHER_LENGTHS: [usize; 8] = [0, 1, 2, 54, 599_184, 599_185, 599_187, 599_188];

/// Sides that no grid has.
const OTHER_SIDES: [u32; 9] = [0, 1, 65, 66, 128, 65_535, 65_536, 1 << 31, u32::MAX];

/// Each of the three sides out of range, and all of them.
fn out_of_range() -> impl Iterator<Item = [u32; 3]> {
    OTHER_SIDES
        .into_iter()
        .flat_map(|side| [[side, 2, 2], [2, side, 2], [2, 2, side], [side; 3]])
}

/// A grid of these sides, whatever they are, with so many samples.
fn of_length(sides: [u32; 3], samples: usize) -> Grid {
    Grid {
        sides,
        grey: 50,
        samples: vec![0; samples],
    }
}

#[test]
fn building_is_refused_with_1_then_2_then_3() {
    for sides in out_of_range() {
        for (samples, length) in [(8, SUMMARY_LENGTH), (8, 7), (7, SUMMARY_LENGTH), (0, 0)] {
            assert_eq!(build_in(&of_length(sides, samples), length).0, 1);
        }
    }
    // As many samples as the sides say.
    for sides in [[1, 2, 2], [2, 65, 2], [2, 2, 65], [0, 2, 2]] {
        for length in [SUMMARY_LENGTH, 0] {
            assert_eq!(build_in(&of_length(sides, count(sides)), length).0, 1);
        }
    }
    for samples in [0, 1, 7, 9, 16, 1_000] {
        for length in [SUMMARY_LENGTH, 599_185, 0] {
            assert_eq!(build_in(&of_length([2; 3], samples), length).0, 2);
        }
    }
    for length in OTHER_LENGTHS {
        assert_eq!(build_in(&of_length([2; 3], 8), length).0, 3);
        assert_eq!(build_in(&mixed(), length).0, 3);
    }
}

/// 1 comes first, whatever else is wrong.
#[test]
fn sides_out_of_range() {
    let right = built(&of_length([2; 3], 8));
    for sides in out_of_range() {
        for (samples, work) in [(8, 24), (8, 0), (9, 24), (0, 0)] {
            let lengths = Lengths {
                work,
                ..roomy([2; 3])
            };
            refuses(&of_length(sides, samples), &right, lengths, 1);
            refuses(&of_length(sides, samples), &[], lengths, 1);
        }
    }
}

/// A summary with its number at a place changed, by some way.
fn changed(summary: &[u16], place: usize, change: u32) -> Vec<u16> {
    let mut summary = summary.to_vec();
    let number = &mut summary[place];
    *number = match change % 4 {
        0 => number.wrapping_add(1),
        1 => number.wrapping_sub(1),
        2 => *number ^ 0x8000,
        _ => !*number,
    };
    summary
}

/// Another summary, by some way.
fn another(summary: &[u16], some: u32) -> Vec<u16> {
    match some {
        0 => summary[1..].to_vec(),
        1 => [summary, &[0]].concat(),
        2 => Vec::new(),
        _ => changed(summary, 599_185, some),
    }
}

/// Another length, by some way.
fn other(length: usize, some: u32) -> usize {
    match some {
        0 if length > 0 => length - 1,
        1 if length > 0 => 0,
        2 => 2 * length + 1,
        _ => length + 1,
    }
}

/// Document 01's figure, its summary and its exact rooms, with the conditions of 1, 2, 3, 19, 4 and 5 made true in some way where bits 0 to 5 are set.
fn spoiled(wrong: u32, some: u32) -> (Grid, Vec<u16>, Lengths) {
    let is = |bit: u32| wrong >> bit & 1 == 1;
    let mut grid = grids::figure();
    let (mut summary, mut lengths) = (built(&grid), exact(&grid));
    if is(0) {
        let sides = [[3, 1, 9], [65, 3, 3], [0, 3, 3], [3, 3, 65]][some as usize];
        grid = of_length(sides, count(sides));
        lengths.work = 3 * count(sides);
    }
    if is(1) {
        grid.samples.resize(other(grid.samples.len(), some), 0);
    }
    if is(2) {
        lengths.work = other(lengths.work, some);
    }
    if is(3) {
        summary = another(&summary, some);
    }
    if is(4) {
        match some {
            0 => lengths.points -= 1,
            1 => lengths.edges -= 1,
            2 => lengths.marks -= 1,
            _ => lengths.points = 2,
        }
    }
    if is(5) {
        lengths.triangles -= [1, 2, 3, 24][some as usize];
    }
    (grid, summary, lengths)
}

/// Every refusal with every other condition true and false, each in four ways: the first in order is answered.
#[test]
fn the_order_of_refusals() {
    for wrong in 0..64 {
        for some in 0..4 {
            let (grid, summary, lengths) = spoiled(wrong, some);
            let number = same(&grid, &summary, lengths).number;
            let first = first_of(&[1, 2, 3, 19, 4, 5], wrong);
            assert_eq!(number, first, "{wrong:b}, {some}");
        }
    }
}

#[test]
fn lengths_that_are_wrong_by_any_number() {
    let (grid, lengths) = (grids::figure(), roomy([3; 3]));
    let right = built(&grid);
    for samples in [0, 1, 26, 28, 54, 1_000] {
        let grid = of_length([3; 3], samples);
        refuses(&grid, &right, lengths, 2);
        refuses(&grid, &right, none([2; 3]), 2);
    }
    for work in [0, 1, 27, 80, 82, 1_000] {
        refuses(&grid, &right, Lengths { work, ..lengths }, 3);
        refuses(
            &grid,
            &[],
            Lengths {
                work,
                ..none([3; 3])
            },
            3,
        );
    }
    let long = [&right[..], &OUTSIDE].concat();
    for length in OTHER_LENGTHS {
        refuses(&grid, &long[..length], lengths, 19);
        refuses(&grid, &long[..length], none([3; 3]), 19);
    }
    refuses(&grid, &right[1..], lengths, 19);
    refuses(&grid, &long[2..], lengths, 19);
}

/// Blocks of each level: the first, the last, the one of the grid's last cube, and the ones after that along each axis, where there are any.
fn blocks(sides: [u32; 3]) -> Vec<Block> {
    let mut blocks = Vec::new();
    for level in 0..=6 {
        let last = (1 << level) - 1;
        let end = Block::around(sides.map(|side| side - 2), level);
        blocks.extend([Block::around([0; 3], level), end]);
        blocks.push(Block {
            level,
            place: [last; 3],
        });
        for axis in (0..3).filter(|&axis| end.place[axis] < last) {
            let mut place = end.place;
            place[axis] += 1;
            blocks.push(Block { level, place });
        }
    }
    blocks
}

/// One number changed is enough, at every level, in the grid and outside it, and whatever the rooms and the grey value are.
#[test]
fn one_number_changed_at_every_level() {
    for mut grid in [mixed(), grids::example(), grids::checkered([64, 3, 2])] {
        let summary = built(&grid);
        for place in blocks(grid.sides)
            .into_iter()
            .flat_map(|block| [block.start(), block.start() + 1])
        {
            for change in 0..4 {
                grid.grey = [5, 0, 65_535, 50][change as usize];
                let other = changed(&summary, place, change);
                refuses_summary(&grid, &other, roomy(grid.sides));
            }
            refuses(&grid, &changed(&summary, place, 0), none(grid.sides), 19);
        }
    }
}

/// A made-up place: in a level that is made up first, or anywhere.
fn made_up_place(seed: &mut Seed) -> usize {
    let levels = [0, 2, 18, 146, 1_170, 9_362, 74_898, SUMMARY_LENGTH];
    match seed.below(8) as usize {
        7 => seed.below(SUMMARY_LENGTH as u64) as usize,
        level => {
            let length = levels[level + 1] - levels[level];
            levels[level] + seed.below(length as u64) as usize
        }
    }
}

/// All numbers of the upper levels, and others by the hundred.
#[test]
fn one_number_changed_anywhere() {
    let mut seed = Seed::new(53);
    let grid = mixed();
    let mut summary = built(&grid);
    let others: Vec<usize> = (0..800).map(|_| made_up_place(&mut seed)).collect();
    for place in (0..1_170).chain(others) {
        let kept = summary[place];
        summary[place] = kept.wrapping_add([1, 65_535][place % 2]);
        refuses_summary(&grid, &summary, none(grid.sides));
        summary[place] = kept;
    }
    assert!(summary == built(&grid));
}

/// All numbers of some rows of cubes, and others by the hundred, in a grid of the largest sides.
#[test]
fn one_number_changed_in_the_largest_grid() {
    let mut seed = Seed::new(54);
    let grid = grids::made_up(&mut seed, [64; 3], 65_536);
    let mut summary = built(&grid);
    let rows = [[0, 0, 0], [0, 62, 62], [0, 63, 1], [0, 1, 63]];
    let in_rows = rows.into_iter().flat_map(|row| {
        let first = Block::around(row, 6).start();
        first..first + 128
    });
    let others: Vec<usize> = (0..300).map(|_| made_up_place(&mut seed)).collect();
    for place in in_rows.chain(others) {
        let kept = summary[place];
        summary[place] = kept ^ 1 << seed.below(16);
        refuses_summary(&grid, &summary, none(grid.sides));
        summary[place] = kept;
    }
    assert!(summary == built(&grid));
}

/// Two numbers that are changed by as much, or exchanged, do not make up for each other.
#[test]
fn two_numbers_changed() {
    let mut seed = Seed::new(55);
    let grid = mixed();
    let summary = built(&grid);
    for _ in 0..200 {
        let [one, two] = [0; 2].map(|_| made_up_place(&mut seed));
        if one == two {
            continue;
        }
        let mut other = summary.clone();
        other[one] = other[one].wrapping_add(4);
        other[two] = other[two].wrapping_sub(4);
        refuses_summary(&grid, &other, none(grid.sides));
        other.copy_from_slice(&summary);
        other[one] ^= 4;
        other[two] ^= 4;
        refuses_summary(&grid, &other, none(grid.sides));
        other.copy_from_slice(&summary);
        other.swap(one, two);
        if other != summary {
            refuses_summary(&grid, &other, none(grid.sides));
        }
    }
}

/// Summaries that are right for something else: other samples, other sides, or another reading of what a block has.
#[test]
fn summaries_of_something_else() {
    let mut seed = Seed::new(56);
    for _ in 0..40 {
        let grid = grids::made_up(&mut seed, [4, 3, 2], 65_536);
        let mut others = vec![vec![0; SUMMARY_LENGTH], OUTSIDE.repeat(SUMMARY_LENGTH / 2)];
        for s in 0..24 {
            let mut other = grid.clone();
            other.samples[s] ^= 1 << seed.below(16);
            others.push(reference::summary::summary_of(other.sides, &other.samples));
        }
        for sides in [[4, 2, 3], [3, 4, 2], [2, 3, 4], [2, 2, 6]] {
            others.push(reference::summary::summary_of(sides, &grid.samples));
        }
        let right = built(&grid);
        others.push(all_samples(&grid, &right));
        for other in others.iter().filter(|&other| *other != right) {
            refuses_summary(&grid, other, none(grid.sides));
        }
        assert_eq!(same(&grid, &right, roomy(grid.sides)).number, 0);
    }
}

/// The summary by another reading: a block has all samples in its range, though at no corner of a cube that is in the block and in the grid.
fn all_samples(grid: &Grid, summary: &[u16]) -> Vec<u16> {
    let mut other = summary.to_vec();
    let [nx, ny, _] = grid.sides;
    for (s, &sample) in (0..).zip(&grid.samples) {
        for level in 0..=6 {
            let at = Block::around([s % nx, s / nx % ny, s / (nx * ny)], level).start();
            other[at] = other[at].min(sample);
            other[at + 1] = other[at + 1].max(sample);
        }
    }
    other
}

/// Samples that no block tells apart have one summary, which is taken with both.
#[test]
fn one_summary_of_two_grids() {
    let grid = grids::example();
    let other = grids::above_where([2; 3], |[x, y, _]| x == y);
    let summary = built(&grid);
    assert!(summary == built(&other));
    for grid in [grid, other] {
        let found = same(&grid, &summary, roomy([2; 3]));
        assert_eq!((found.number, found.blocks), (0, 49));
    }
}

/// Sides that are short for the most part, or one of them long.
fn made_up_sides(seed: &mut Seed) -> [u32; 3] {
    let mut sides = [0; 3].map(|_| 2 + seed.below(5) as u32);
    if seed.below(4) == 0 {
        sides[seed.below(3) as usize] = 2 + seed.below(63) as u32;
    }
    sides
}

/// A grey value that parts the samples for the most part.
fn made_up_grey(seed: &mut Seed, samples: &[u16]) -> u16 {
    let some = samples[seed.below(samples.len() as u64) as usize];
    match seed.below(8) {
        0 => 0,
        1 => 65_535,
        2 => seed.below(65_536) as u16,
        3 | 4 => some.saturating_add(1),
        _ => some,
    }
}

/// The exact rooms of a mesh, or at times one of them longer or shorter.
fn made_up_lengths(seed: &mut Seed, mut lengths: Lengths) -> Lengths {
    let some = 1 + seed.below(3) as usize;
    let one = match seed.below(12) {
        0 | 1 => &mut lengths.points,
        2 => &mut lengths.edges,
        3 => &mut lengths.marks,
        4..=6 => &mut lengths.triangles,
        _ => return lengths,
    };
    *one = match seed.below(4) {
        0 => *one + some,
        _ => one.saturating_sub(some),
    };
    lengths
}

/// Eight queries of each grid by one summary, which is at times another.
#[test]
fn made_up_queries_by_the_thousand() {
    let mut seed = Seed::new(57);
    let mut numbers = BTreeMap::new();
    for _ in 0..500 {
        let sides = made_up_sides(&mut seed);
        let bound = [2, 5, 256, 65_536][seed.below(4) as usize];
        let mut grid = grids::made_up(&mut seed, sides, bound);
        let summary = built(&grid);
        for _ in 0..8 {
            grid.grey = made_up_grey(&mut seed, &grid.samples);
            let lengths = made_up_lengths(&mut seed, exact(&grid));
            let number = match seed.below(8) {
                0 => {
                    let place = made_up_place(&mut seed);
                    let other = changed(&summary, place, seed.below(4) as u32);
                    same(&grid, &other, lengths).number
                }
                _ => same(&grid, &summary, lengths).number,
            };
            *numbers.entry(number).or_insert(0) += 1;
        }
    }
    let seen: Vec<u32> = numbers.keys().copied().collect();
    assert_eq!(seen, [0, 4, 5, 19]);
    assert!(numbers.values().all(|&count| count > 300), "{numbers:?}");
}
