//! Shells against the reference: the answer, and every place of the three rooms; and where boxes lie, against figures made by hand.

mod tools;

use tools::{
    by_hand, extents, extracted, first_of, guard, held, made_up_triangles, placed, plain, shuffled,
    smoothed, spoiled, Caller, Seed,
};
use viewer::Shell;

/// Records after the last that is lent, which no call may write.
const BEYOND: usize = 2;

/// One call on both sides with rooms of these lengths; answers number, count, shell numbers and records.
fn same_in(
    mesh: &Caller,
    numbers: usize,
    records: usize,
    work: usize,
) -> (u32, u32, Vec<u32>, Vec<Shell>) {
    let (held_numbers, held_work, held_records) = (
        guard(0xa5a5_0001, numbers),
        guard(0xbeef_0007, work),
        held(records + BEYOND),
    );
    let (mut proved_numbers, mut plain_numbers) = (held_numbers.clone(), held_numbers.clone());
    let (mut proved_work, mut plain_work) = (held_work.clone(), held_work.clone());
    let mut proved = held_records.clone();
    let mut expected_records: Vec<_> = proved.iter().map(plain).collect();
    let found = viewer::shells(
        mesh.lent(),
        &mut proved_numbers,
        &mut proved[..records],
        &mut proved_work,
    );
    let expected = reference::shells::shells(
        &mesh.points,
        &mesh.triangles,
        &mesh.marks,
        &mut plain_numbers,
        &mut expected_records[..records],
        &mut plain_work,
    );
    assert_eq!(
        (found.number, found.shells),
        (expected.number, expected.shells)
    );
    assert_eq!(proved_numbers, plain_numbers);
    assert_eq!(
        proved.iter().map(plain).collect::<Vec<_>>(),
        expected_records
    );
    assert_eq!(proved_work, plain_work);
    if found.number != 0 {
        assert_eq!(found.shells, 0);
        assert_eq!((&proved_numbers, &proved), (&held_numbers, &held_records));
    }
    if found.number == 0 || found.number == 11 {
        assert!(proved_work.iter().all(|&n| n == 0));
    } else {
        assert_eq!(proved_work, held_work);
    }
    (found.number, found.shells, proved_numbers, proved)
}

/// A granted call with records to spare, and the same with just enough, one too few and none.
fn same(mesh: &Caller) -> (u32, Vec<u32>, Vec<Shell>) {
    let v = mesh.marks.len();
    let (number, count, numbers, records) = same_in(mesh, v, v + 3, 2 * v);
    assert_eq!(number, 0);
    let shells = count as usize;
    assert_eq!(same_in(mesh, v, shells, 2 * v).0, 0);
    if shells > 0 {
        assert_eq!(same_in(mesh, v, shells - 1, 2 * v).0, 11);
        assert_eq!(same_in(mesh, v, 0, 2 * v).0, 11);
    }
    let total = |field: fn(&Shell) -> u32| -> usize {
        records[..shells].iter().map(|s| field(s) as usize).sum()
    };
    assert_eq!(total(|s| s.points), v);
    assert_eq!(total(|s| s.triangles), mesh.triangles.len() / 3);
    (count, numbers, records)
}

#[test]
fn the_figure_of_document_01() {
    let mut samples = vec![0; 27];
    samples[13] = 100;
    let (count, numbers, records) = same(&tools::mesh_of([3, 3, 3], 50, &samples));
    assert_eq!((count, numbers), (1, vec![0; 6]));
    let only = &records[0];
    assert_eq!(
        (
            only.low,
            only.points,
            only.triangles,
            only.touches,
            only.volume,
            extents(only)
        ),
        (0, 6, 8, 0, 16_777_216, [[128, 384]; 3])
    );
}

#[test]
fn extracted_meshes_raw_and_smoothed() {
    let mut seed = Seed::new(41);
    for sides in [[4, 4, 4], [7, 5, 6], [2, 9, 3], [16, 12, 14]] {
        for bound in [2, 20, 65_536] {
            let raw = extracted(&mut seed, sides, bound);
            same(&raw);
            same(&smoothed(&raw, 3, 200));
        }
    }
}

/// A block of metal with voids of one sample each, none beside another: the block, and where the voids are, in the order of their lowest points.
fn block(side: u32) -> (Caller, Vec<[u32; 3]>) {
    let mut samples = vec![1000; (side * side * side) as usize];
    let mut voids = Vec::new();
    for z in (2..side - 1).step_by(3) {
        for y in (2..side - 1).step_by(3) {
            for x in (2..side - 1).step_by(3) {
                samples[(x + side * (y + side * z)) as usize] = 0;
                voids.push([x, y, z]);
            }
        }
    }
    (tools::mesh_of([side; 3], 500, &samples), voids)
}

/// The points of a void stand half a voxel from its sample; a round of full weight puts them all at the sample.
#[test]
fn castings_with_known_voids() {
    for side in [5, 9, 17, 33] {
        let (raw, voids) = block(side);
        for (mesh, half) in [(&raw, 128), (&smoothed(&raw, 1, 256), 0)] {
            let (count, _, records) = same(mesh);
            assert_eq!(count as usize, voids.len());
            for (record, void) in records.iter().zip(&voids) {
                assert_eq!((record.touches, record.volume < 0), (0, half > 0));
                assert_eq!(
                    extents(record),
                    void.map(|at| [256 * at - half, 256 * at + half])
                );
            }
        }
    }
}

/// Long chains, joined in rising, falling and shuffled order: one shell each.
#[test]
fn chains() {
    let mut seed = Seed::new(42);
    let count = 100_000u32;
    let links: Vec<[u32; 3]> = (0..count - 2).map(|i| [i, i + 1, i + 2]).collect();
    let falling: Vec<[u32; 3]> = links.iter().rev().copied().collect();
    let ends: Vec<[u32; 3]> = (1..count - 1)
        .map(|i| [count - 1 - i, count - i, 0])
        .collect();
    for triples in [
        links.concat(),
        falling.concat(),
        shuffled(&mut seed, links),
        ends.concat(),
    ] {
        let mesh = placed(&mut seed, count as usize, triples);
        let v = mesh.marks.len();
        let (number, shells, numbers, _) = same_in(&mesh, v, 1, 2 * v);
        assert_eq!((number, shells), (0, 1));
        assert!(numbers.iter().all(|&n| n == 0));
    }
}

#[test]
fn meshes_made_by_hand() {
    let mut seed = Seed::new(43);
    for (count, triangles) in by_hand() {
        same(&placed(&mut seed, count, triangles));
    }
}

/// Every coordinate is the least or the greatest that there may be.
#[test]
fn coordinates_at_the_limits() {
    let mut seed = Seed::new(46);
    for (count, triangles) in by_hand() {
        let mut mesh = placed(&mut seed, count, triangles);
        for coordinate in &mut mesh.points {
            *coordinate = 16_128 * seed.below(2) as u32;
        }
        same(&mesh);
    }
}

#[test]
fn all_points_in_one_place() {
    let mut seed = Seed::new(47);
    for place in [[0; 3], [16_128; 3], [16_128, 0, 5000]] {
        for (count, triangles) in by_hand() {
            let mut mesh = placed(&mut seed, count, triangles);
            mesh.points = place.repeat(count);
            let (shells, _, records) = same(&mesh);
            for record in &records[..shells as usize] {
                assert_eq!(extents(record), place.map(|at| [at, at]));
            }
        }
    }
}

/// A void of 5 samples a side with an island of one sample in its middle, whose box lies within the void's.
#[test]
fn a_shell_within_the_box_of_another() {
    let mut samples = vec![1000; 9 * 9 * 9];
    for z in 2..=6 {
        for y in 2..=6 {
            for x in 2..=6 {
                samples[x + 9 * (y + 9 * z)] = 0;
            }
        }
    }
    samples[4 + 9 * (4 + 9 * 4)] = 1000;
    let (count, _, records) = same(&tools::mesh_of([9; 3], 500, &samples));
    assert_eq!(count, 2);
    let [void, island] = [records[0], records[1]];
    assert!(void.volume < 0 && island.volume > 0);
    assert_eq!(extents(&void), [[384, 1664]; 3]);
    assert_eq!(extents(&island), [[896, 1152]; 3]);
}

#[test]
fn meshes_of_made_up_triangles() {
    let mut seed = Seed::new(44);
    for count in [3u64, 10, 60, 2000] {
        for triangles in [1, 5, 40, 700] {
            let named = made_up_triangles(&mut seed, count, triangles);
            same(&placed(&mut seed, count as usize, named));
        }
    }
}

/// The greatest determinants there are, as often as triangles may come, of either sign.
#[test]
fn volumes_at_the_extremes() {
    let points = vec![16_128, 16_128, 0, 0, 16_128, 16_128, 16_128, 0, 16_128];
    for triple in [[0, 1, 2], [0, 2, 1]] {
        let mesh = Caller {
            points: points.clone(),
            triangles: triple.repeat(500_000),
            marks: vec![0, 1, 0],
        };
        let (_, count, _, records) = same_in(&mesh, 3, 1, 6);
        assert_eq!(count, 1);
        assert_eq!(
            records[0].volume.unsigned_abs(),
            500_000 * 2 * 16_128u64.pow(3)
        );
        assert_eq!(extents(&records[0]), [[0, 16_128]; 3]);
    }
}

/// Each refusal made true or not, all 64 ways: the first that is true in the order 6, 7, 8, 9, 3, 11 is answered.
#[test]
fn refusals_in_order() {
    let mut seed = Seed::new(45);
    let whole = extracted(&mut seed, [4, 3, 3], 50);
    for wrong in 0..64u32 {
        let mesh = spoiled(&whole, wrong);
        let v = whole.marks.len();
        let records = if wrong >> 5 == 1 { 0 } else { v };
        let off = (wrong >> 4 & 1) as usize;
        for (numbers, work) in [
            (v + off, 2 * v),
            (v - off, 2 * v),
            (v, 2 * v + off),
            (v, 2 * v - off),
        ] {
            let number = same_in(&mesh, numbers, records, work).0;
            assert_eq!(number, first_of(&[6, 7, 8, 9, 3, 11], wrong));
        }
    }
}
