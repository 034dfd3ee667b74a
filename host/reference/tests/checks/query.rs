//! Trying many grey values: figures, the blocks looked at, the extractor's mesh,
//! limits, refusals and rooms.

use crate::tools::{
    exactly_250_000_points, exactly_500_000_triangles, one_point_more, one_triangle_more,
    random_grid, random_grid_of, Grid, Random, Rooms,
};
use reference::query::{crossed_cubes, look, step, Queried, Steps};
use reference::summary::{summary_of, Block, SUMMARY};
use std::collections::BTreeMap;

/// The summary of a grid.
fn summary(grid: &Grid) -> Vec<u16> {
    summary_of(grid.sides, &grid.samples)
}

fn crossed(grid: &Grid) -> Vec<[u32; 3]> {
    crossed_cubes(grid.sides, grid.grey, &grid.samples)
}

fn refused(number: u32) -> Queried {
    Queried {
        number,
        points: 0,
        triangles: 0,
        blocks: 0,
    }
}

/// A query with these rooms is refused with `number`; the result rooms stay, and
/// the work room stays up to refusal 3 and is zero after it.
fn assert_refused(grid: &Grid, summary: &[u16], rooms: &Rooms, number: u32) {
    let mut after = rooms.clone();
    assert_eq!(after.query(grid, summary), refused(number));
    if number <= 3 {
        assert!(after == *rooms, "{number} leaves every room");
    } else {
        assert!(after == rooms.with_zero_work(), "{number}");
    }
}

/// The number of blocks that a second way opens: it asks every block for its
/// samples and opens it from above, one half after the other.
fn opened_by_samples(grid: &Grid, first: [u32; 3], side: u32) -> u32 {
    let [nx, ny, nz] = grid.sides;
    if side == 1 || first[0] + 1 >= nx || first[1] + 1 >= ny || first[2] + 1 >= nz {
        return 0;
    }
    let last = [0, 1, 2].map(|axis| (first[axis] + side).min(grid.sides[axis] - 1));
    let (mut above, mut below) = (false, false);
    for z in first[2]..=last[2] {
        for y in first[1]..=last[1] {
            for x in first[0]..=last[0] {
                let sample = grid.samples[(x + nx * (y + ny * z)) as usize];
                above |= sample >= grid.grey;
                below |= sample < grid.grey;
            }
        }
    }
    if !above || !below {
        return 0;
    }
    let half = side / 2;
    let mut opened = 1;
    for z in [first[2], first[2] + half] {
        for y in [first[1], first[1] + half] {
            for x in [first[0], first[0] + half] {
                opened += opened_by_samples(grid, [x, y, z], half);
            }
        }
    }
    opened
}

/// What holds of the steps over every grid: 1 + 8 times the blocks opened are
/// looked at, those of the second way; a step finds each crossed cube and no
/// other; the blocks are at most 1 + 48c.
fn assert_steps(grid: &Grid, steps: &Steps) {
    let (looked_at, opened) = (steps.looked_at.len(), steps.opened.len());
    assert_eq!(looked_at, 1 + 8 * opened);
    assert_eq!(opened, opened_by_samples(grid, [0; 3], 64) as usize);
    assert!(steps.found == crossed(grid), "the crossed cubes are found");
    assert!(looked_at <= 1 + 48 * steps.found.len());
}

/// A query with these rooms gives what the extractor gives, and with it the
/// number of blocks that the steps look at. Returns the refusal number.
fn assert_as_extractor(grid: &Grid, summary: &[u16], steps: &Steps, rooms: Rooms) -> u32 {
    let (mut by_query, mut by_extractor) = (rooms.clone(), rooms);
    let answer = by_query.query(grid, summary);
    let wanted = by_extractor.extract(grid);
    assert_eq!(
        (answer.number, answer.points, answer.triangles),
        (wanted.number, wanted.points, wanted.triangles)
    );
    let granted = answer.number == 0;
    let blocks = if granted { steps.looked_at.len() } else { 0 };
    assert_eq!(answer.blocks as usize, blocks);
    assert!(by_query == by_extractor, "every room is the extractor's");
    answer.number
}

/// The blocks looked at, those opened and the crossed cubes of a grid, whose
/// query is the extractor's in enough rooms.
fn figures(grid: &Grid) -> (u32, usize, usize) {
    let summary = summary(grid);
    let steps = look(&summary, grid.grey);
    assert_steps(grid, &steps);
    let mut rooms = Rooms::enough(grid.samples.len());
    let number = assert_as_extractor(grid, &summary, &steps, rooms.clone());
    assert_eq!(number, 0);
    let blocks = rooms.query(grid, &summary).blocks;
    (blocks, steps.opened.len(), crossed(grid).len())
}

/// "its least sample is below the grey value and its greatest isn't".
#[test]
fn steps_that_find_a_block_crossed() {
    for (least, greatest, grey) in [(0, 1, 1), (0, 100, 50), (49, 50, 50), (0, 65_535, 65_535)] {
        assert!(step(least, greatest, grey));
    }
    for (least, greatest, grey) in [
        (0, 0, 0),
        (0, 65_535, 0),
        (50, 50, 50),
        (50, 100, 50),
        (0, 49, 50),
        (1, 65_534, 65_535),
        (65_535, 65_535, 65_535),
    ] {
        assert!(!step(least, greatest, grey));
    }
    for grey in 0..=65_535 {
        assert!(!step(65_535, 0, grey), "a block outside the grid");
    }
}

/// Document 01's worked example meets the bound 1 + 48c.
#[test]
fn worked_example_figures() {
    let mut grid = Grid::above_where([2; 3], |at| at == [0; 3]);
    assert_eq!(figures(&grid), (49, 6, 1));
    for grey in [1, 100] {
        grid.grey = grey;
        assert_eq!(figures(&grid), (49, 6, 1));
    }
    for grey in [0, 101, 65_535] {
        grid.grey = grey;
        assert_eq!(figures(&grid), (1, 0, 0));
    }
}

/// The blocks that the worked example's query looks at: the whole block, then
/// the halves of the first block of each level.
#[test]
fn worked_example_blocks() {
    let grid = Grid::above_where([2; 3], |at| at == [0; 3]);
    let steps = look(&summary(&grid), grid.grey);
    let first = |level| Block::around([0; 3], level);
    assert_eq!(steps.opened, [0, 1, 2, 3, 4, 5].map(first));
    let mut wanted = vec![first(0)];
    for level in 0..6 {
        wanted.extend(first(level).halves());
    }
    assert_eq!(steps.looked_at, wanted);
    assert_eq!(steps.found, [[0; 3]]);
}

#[test]
fn one_sample_above_figures() {
    assert_eq!(figures(&Grid::centre()), (49, 6, 8));
    let far = Grid::above_where([3, 2, 2], |at| at == [2, 0, 0]);
    assert_eq!(figures(&far), (49, 6, 1));
    assert_eq!(crossed(&far), [[1, 0, 0]]);
    let farthest = Grid::above_where([64, 2, 2], |at| at == [63, 0, 0]);
    assert_eq!(figures(&farthest), (49, 6, 1));
    assert_eq!(crossed(&farthest), [[62, 0, 0]]);
}

#[test]
fn many_samples_above_figures() {
    for odd in [0, 1] {
        let board = Grid::above_where([4; 3], |[x, y, z]| (x + y + z) % 2 == odd);
        assert_eq!(figures(&board), (105, 13, 27));
    }
    let slope = Grid::above_where([9; 3], |[x, y, z]| x + y + z >= 12);
    assert_eq!(figures(&slope), (361, 45, 142));
    let mut mixed = Grid::filled([5, 4, 3], 5, 0);
    for (s, sample) in (0..).zip(&mut mixed.samples) {
        *sample = 7 * s % 11;
    }
    assert_eq!(figures(&mixed), (73, 9, 24));
}

/// Every cube of side 64 has one corner with three odd coordinates. A query
/// looks at all blocks then, and the mesh stays within its bounds.
#[test]
fn all_blocks_are_looked_at() {
    let grid = Grid::above_where([64; 3], |at| {
        at.iter().all(|coordinate| coordinate % 2 == 1)
    });
    let summary = summary(&grid);
    let steps = look(&summary, grid.grey);
    assert_steps(&grid, &steps);
    let mut rooms = Rooms::guarded(750_000, 250_000, 250_000, 1_500_000, 786_432);
    let number = assert_as_extractor(&grid, &summary, &steps, rooms.clone());
    assert_eq!(number, 0);
    let answer = rooms.query(&grid, &summary);
    let wanted = Queried {
        number: 0,
        points: 3 * 63 * 32 * 32,
        triangles: 63 * 63 * 63,
        blocks: 299_593,
    };
    assert_eq!(answer, wanted);
    assert_eq!(2 * steps.looked_at.len(), SUMMARY);
    assert_eq!(crossed(&grid).len(), 250_047);
}

/// "A tester moves the grey value thirty times on one volume."
#[test]
fn thirty_grey_values_on_one_volume() {
    let mut grid = Grid::filled([20, 17, 19], 0, 0);
    for (s, sample) in (0..).zip(&mut grid.samples) {
        let [x, y, z] = [s % 20, s / 20 % 17, s / 340];
        *sample = 3 * x * x + 5 * y * y + 2 * z * z;
    }
    let summary = summary(&grid);
    let rooms = Rooms::enough(grid.samples.len());
    let mut blocks = Vec::new();
    for grey in (0..30).map(|i| 100 * i) {
        grid.grey = grey;
        let steps = look(&summary, grey);
        assert_steps(&grid, &steps);
        assert_eq!(
            assert_as_extractor(&grid, &summary, &steps, rooms.clone()),
            0
        );
        blocks.push(steps.looked_at.len());
    }
    assert_eq!(blocks[0], 1);
    assert!(blocks[1..].iter().all(|&count| count > 49));
}

/// Grey values that part the samples of a grid in several ways.
fn grey_values(grid: &Grid, random: &mut Random) -> Vec<u16> {
    let least = *grid.samples.iter().min().unwrap();
    let greatest = *grid.samples.iter().max().unwrap();
    let some = grid.samples[random.below(grid.samples.len() as u32) as usize];
    let around = |grey: u16| [grey, grey.saturating_add(1)];
    let mut values = vec![0, 1, 65_535, grid.grey];
    values.extend([least, greatest, some].into_iter().flat_map(around));
    values
}

/// Rooms for the points and triangles of an extraction: these, or one less of
/// one of the four.
fn rooms_around(grid: &Grid) -> [Rooms; 5] {
    let answer = Rooms::enough(grid.samples.len()).extract(grid);
    let (points, triangles) = (answer.points as usize, answer.triangles as usize);
    let less = [
        [0, 0, 0, 0],
        [1, 0, 0, 0],
        [0, 1, 0, 0],
        [0, 0, 1, 0],
        [0, 0, 0, 1],
    ];
    less.map(|less| {
        Rooms::guarded(
            (3 * points).saturating_sub(less[0]),
            points.saturating_sub(less[1]),
            points.saturating_sub(less[2]),
            (3 * triangles).saturating_sub(less[3]),
            3 * grid.samples.len(),
        )
    })
}

/// Whatever the grey value and the rooms, a query leaves what the extractor
/// leaves.
#[test]
fn random_grids_agree_with_the_extractor() {
    let mut random = Random::new(31);
    let mut seen = BTreeMap::new();
    for _ in 0..100 {
        let mut grid = random_grid(&mut random);
        let summary = summary(&grid);
        for grey in grey_values(&grid, &mut random) {
            grid.grey = grey;
            let steps = look(&summary, grey);
            assert_steps(&grid, &steps);
            let mut all_rooms = rooms_around(&grid).to_vec();
            all_rooms.push(Rooms::enough(grid.samples.len()));
            for rooms in all_rooms {
                let number = assert_as_extractor(&grid, &summary, &steps, rooms);
                *seen.entry(number).or_insert(0) += 1;
            }
        }
    }
    let numbers: Vec<u32> = seen.keys().copied().collect();
    assert_eq!(numbers, [0, 4, 5]);
    assert!(seen.values().all(|&count| count > 300), "{seen:?}");
}

/// Grids with longer sides.
#[test]
fn random_large_grids_agree_with_the_extractor() {
    let mut random = Random::new(32);
    let mut all_sides = vec![[64, 2, 3], [2, 64, 33], [34, 33, 64], [64, 64, 64]];
    all_sides.extend((0..6).map(|_| [0; 3].map(|_| 2 + random.below(40))));
    for sides in all_sides {
        let mut grid = Grid::filled(sides, 500, 1000);
        for sample in &mut grid.samples {
            if random.below(1000) < 4 {
                *sample = random.below(1000) as u16;
            }
        }
        let summary = summary(&grid);
        let steps = look(&summary, grid.grey);
        assert_steps(&grid, &steps);
        let rooms = Rooms::enough(grid.samples.len());
        assert_eq!(assert_as_extractor(&grid, &summary, &steps, rooms), 0);
    }
}

#[test]
fn results_stand_in_front_and_the_rest_stays() {
    let grid = Grid::centre();
    let before = Rooms::guarded(23, 9, 8, 29, 81);
    let mut rooms = before.clone();
    let answer = rooms.query(&grid, &summary(&grid));
    let wanted = Queried {
        number: 0,
        points: 6,
        triangles: 8,
        blocks: 49,
    };
    assert_eq!(answer, wanted);
    assert_eq!(rooms.edges[..6], [14, 31, 36, 39, 40, 41]);
    assert_eq!(rooms.edges[6..], before.edges[6..]);
    assert_eq!(rooms.points[..3], [256, 256, 128]);
    assert_eq!(rooms.points[18..], before.points[18..]);
    assert_eq!(rooms.marks[..6], [0; 6]);
    assert_eq!(rooms.marks[6..], before.marks[6..]);
    assert_eq!(rooms.triangles[..6], [2, 0, 1, 3, 1, 0]);
    assert_eq!(rooms.triangles[24..], before.triangles[24..]);
    assert_eq!(rooms.work, [0; 81]);
}

/// The triangles of cubes in different blocks come in the plain order: cube
/// (2, 0, 0) before cube (0, 1, 0), which a smaller block holds together with
/// cube (0, 0, 0).
#[test]
fn triangles_come_in_the_plain_order() {
    let grid = Grid::above_where([4, 3, 2], |[_, _, z]| z == 1);
    let summary = summary(&grid);
    let steps = look(&summary, grid.grey);
    let wanted = [[0, 0], [1, 0], [2, 0], [0, 1], [1, 1], [2, 1]];
    assert_eq!(steps.found, wanted.map(|[x, y]| [x, y, 0]));
    let mut rooms = Rooms::enough(24);
    assert_eq!(rooms.query(&grid, &summary).triangles, 12);
    // Point p stands on the edge from sample p along z.
    let lowest = rooms.triangles[..36].chunks(6).map(|two| two.iter().min());
    let lowest: Vec<u32> = lowest.map(|point| *point.unwrap()).collect();
    assert_eq!(lowest, [0, 1, 2, 4, 5, 6]);
}

/// Grey value 0 makes all above: one block is looked at, and no rooms are
/// needed.
#[test]
fn grey_value_0_gives_an_empty_mesh() {
    let mut grid = Grid::centre();
    grid.grey = 0;
    let all_above = Grid::filled([4, 2, 3], 7, 7);
    let all_below = Grid::filled([4, 2, 3], 65_535, 65_534);
    for grid in [grid, all_above, all_below] {
        let work = 3 * grid.samples.len();
        for rooms in [
            Rooms::guarded(0, 0, 0, 0, work),
            Rooms::guarded(18, 6, 6, 24, work),
        ] {
            let mut after = rooms.clone();
            let mut wanted = refused(0);
            wanted.blocks = 1;
            assert_eq!(after.query(&grid, &summary(&grid)), wanted);
            assert_eq!(after, rooms.with_zero_work());
        }
    }
}

/// "A room for points or triangles counts its whole threes."
#[test]
fn rooms_just_large_enough_are_taken_and_smaller_ones_refused() {
    let grid = Grid::centre();
    let summary = summary(&grid);
    for (points, edges, marks, triangles) in [(18, 6, 6, 24), (19, 6, 6, 25), (20, 6, 6, 26)] {
        let mut rooms = Rooms::guarded(points, edges, marks, triangles, 81);
        assert_eq!(rooms.query(&grid, &summary).number, 0);
    }
    for (points, edges, marks) in [(17, 6, 6), (15, 6, 6), (0, 6, 6), (18, 5, 6), (18, 6, 5)] {
        for triangles in [24, 0] {
            let rooms = Rooms::guarded(points, edges, marks, triangles, 81);
            assert_refused(&grid, &summary, &rooms, 4);
        }
    }
    for triangles in [23, 22, 21, 0] {
        let rooms = Rooms::guarded(18, 6, 6, triangles, 81);
        assert_refused(&grid, &summary, &rooms, 5);
    }
}

/// A query of the centre figure with another summary is refused with 19, whatever
/// the grey value and the other rooms are.
fn assert_another(other: &[u16]) {
    for grey in [50, 0, 65_535] {
        let mut grid = Grid::centre();
        grid.grey = grey;
        for [points, edges, marks, triangles] in [[18, 6, 6, 24], [0; 4]] {
            let rooms = Rooms::guarded(points, edges, marks, triangles, 81);
            assert_refused(&grid, other, &rooms, 19);
        }
    }
}

/// "19 after 3 if the lent summary isn't that of the samples", before 4 and 5:
/// one of another length, or of another grid.
#[test]
fn another_summary_is_refused() {
    let right = summary(&Grid::centre());
    for length in [0, 2, SUMMARY - 2, SUMMARY - 1] {
        assert_another(&right[..length]);
    }
    assert_another(&right[1..]);
    for more in [&[0][..], &[65_535, 0]] {
        assert_another(&[&right[..], more].concat());
    }
    assert_another(&vec![0; SUMMARY]);
    for sides in [[3, 3, 3], [2, 3, 3], [64, 64, 64]] {
        assert_another(&summary(&Grid::filled(sides, 50, 0)));
    }
}

/// Any one number that differs is enough.
#[test]
fn a_summary_with_one_other_number_is_refused() {
    let mut lent = summary(&Grid::centre());
    let mut random = Random::new(33);
    let ends = [0, 1, 2, 3, 16, 17, 74_898, 74_899, 599_184, 599_185];
    let some = (0..30).map(|_| random.below(SUMMARY as u32) as usize);
    for place in ends.into_iter().chain(some) {
        let right = lent[place];
        for change in [1, u16::MAX] {
            lent[place] = right.wrapping_add(change);
            assert_another(&lent);
        }
        lent[place] = right;
    }
    assert!(lent == summary(&Grid::centre()));
}

/// A summary of samples that part in the same way is another summary.
#[test]
fn a_summary_of_other_samples_is_refused() {
    let grid = Grid::centre();
    let mut brighter = grid.clone();
    brighter.set([1, 1, 1], 101);
    let rooms = Rooms::guarded(18, 6, 6, 24, 81);
    assert_refused(&grid, &summary(&brighter), &rooms, 19);
    assert_refused(&brighter, &summary(&grid), &rooms, 19);
    let steps = look(&summary(&brighter), 50);
    assert_eq!(
        assert_as_extractor(&brighter, &summary(&brighter), &steps, rooms),
        0
    );
}

/// Samples that differ where no block tells: both grids have one summary.
#[test]
fn a_summary_of_two_grids_is_taken_with_both() {
    let grid = Grid::above_where([2; 3], |at| at == [0; 3]);
    let other = Grid::above_where([2; 3], |[x, y, _]| x == y);
    assert!(summary(&grid) == summary(&other));
    assert_eq!(figures(&grid), figures(&other));
}

#[test]
fn work_room_has_exactly_three_numbers_per_sample() {
    let grid = Grid::centre();
    let right = summary(&grid);
    for work in [0, 80, 82, 27] {
        for summary in [&right[..], &right[1..], &[]] {
            let rooms = Rooms::guarded(18, 6, 6, 24, work);
            assert_refused(&grid, summary, &rooms, 3);
            assert_refused(&grid, summary, &Rooms::guarded(0, 0, 0, 0, work), 3);
        }
    }
}

#[test]
fn samples_are_as_many_as_the_sides_say() {
    let right = summary(&Grid::centre());
    for count in [0, 26, 28] {
        let mut grid = Grid::centre();
        grid.samples.resize(count, 0);
        for summary in [&right[..], &right[1..], &[]] {
            assert_refused(&grid, summary, &Rooms::guarded(18, 6, 6, 24, 81), 2);
            assert_refused(&grid, summary, &Rooms::guarded(0, 0, 0, 0, 7), 2);
        }
    }
}

#[test]
fn sides_are_2_to_64() {
    let right = summary(&Grid::filled([2, 3, 2], 50, 0));
    for axis in 0..3 {
        for side in [0, 1, 65, 66, 65_536, u32::MAX] {
            let mut grid = Grid::filled([2, 3, 2], 50, 0);
            grid.sides[axis] = side;
            for summary in [&right[..], &right[1..], &[]] {
                assert_refused(&grid, summary, &Rooms::guarded(18, 6, 6, 24, 36), 1);
                assert_refused(&grid, summary, &Rooms::guarded(0, 0, 0, 0, 0), 1);
            }
        }
        for side in [2, 64] {
            let mut sides = [3; 3];
            sides[axis] = side;
            let grid = Grid::above_where(sides, |at| at[axis] == side - 1);
            assert_eq!(figures(&grid), (49, 6, 4));
        }
    }
    for sides in [[65_536, 65_536, 2], [2, 2, 1_073_741_826], [u32::MAX; 3]] {
        let (grey, samples) = (1, vec![0; 8]);
        let grid = Grid {
            sides,
            grey,
            samples,
        };
        assert_refused(&grid, &right, &Rooms::guarded(18, 6, 6, 24, 24), 1);
    }
}

/// Grids of 250,000 points and of 500,000 triangles, and of one more.
#[test]
fn limits_are_those_of_the_extractor() {
    let rooms = Rooms::guarded(750_003, 250_001, 250_001, 1_500_003, 786_432);
    for (grid, number) in [
        (exactly_250_000_points(), 0),
        (one_point_more(), 4),
        (exactly_500_000_triangles(), 0),
        (one_triangle_more(), 5),
        (Grid::checkerboard(), 4),
    ] {
        let summary = summary(&grid);
        let steps = look(&summary, grid.grey);
        assert_steps(&grid, &steps);
        let given = assert_as_extractor(&grid, &summary, &steps, rooms.clone());
        assert_eq!(given, number);
        assert_refused(&grid, &summary[1..], &rooms, 19);
    }
}

/// Calls with random faults are refused for the first of them in the order 1, 2,
/// 3, 19, 4, 5.
#[test]
fn the_first_fault_refuses() {
    let mut random = Random::new(34);
    let mut seen = BTreeMap::new();
    for _ in 0..600 {
        let sides = [0; 3].map(|_| 2 + random.below(3));
        let mut grid = random_grid_of(&mut random, sides);
        let answer = Rooms::enough(grid.samples.len()).extract(&grid);
        if answer.triangles == 0 {
            continue;
        }
        let mut lent = summary(&grid);
        let (points, triangles) = (answer.points as usize, answer.triangles as usize);
        let mut work = 3 * grid.samples.len();
        let mut rooms = [3 * points, points, points, 3 * triangles];
        let mut number = 0;
        for fault in [5, 4, 19, 3, 2, 1] {
            if random.below(4) != 0 {
                continue;
            }
            number = fault;
            let some = random.below(3) as usize;
            match fault {
                5 => rooms[3] -= 1 + some,
                4 => rooms[some] -= 1,
                19 => lent[random.below(SUMMARY as u32) as usize] ^= 1 << some,
                3 => work += 1 + some,
                2 => grid.samples.extend(vec![0; 1 + some]),
                _ => grid.sides[some] = [0, 1, 65][random.below(3) as usize],
            }
        }
        let [points, edges, marks, triangles] = rooms;
        let rooms = Rooms::guarded(points, edges, marks, triangles, work);
        if number == 0 {
            assert_eq!(rooms.clone().query(&grid, &lent).number, 0);
        } else {
            assert_refused(&grid, &lent, &rooms, number);
        }
        *seen.entry(number).or_insert(0) += 1;
    }
    let numbers: Vec<u32> = seen.keys().copied().collect();
    assert_eq!(numbers, [0, 1, 2, 3, 4, 5, 19]);
    assert!(seen.values().all(|&count| count > 20), "{seen:?}");
}
