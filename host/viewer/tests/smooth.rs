//! Smoothing against the reference: the number, and every place of both rooms.

mod tools;

use tools::{extracted, first_of, guard, made_up_triangles, spoiled, Caller, Seed};

fn work(mesh: &Caller) -> usize {
    6 * (mesh.triangles.len() / 3) + 5 * mesh.marks.len() + 1
}

/// One call on both sides with rooms of these lengths; answers the number and what the second point list holds.
fn same_in(mesh: &Caller, rounds: u32, weight: u32, second: usize, work: usize) -> (u32, Vec<u32>) {
    let (held, room) = (guard(0xa5a5_0001, second), guard(0xbeef_0007, work));
    let (mut proved, mut proved_work) = (held.clone(), room.clone());
    let (mut plain, mut plain_work) = (held.clone(), room.clone());
    let number = viewer::smooth(mesh.lent(), rounds, weight, &mut proved, &mut proved_work);
    let expected = reference::smooth::smooth(
        &mesh.points,
        &mesh.triangles,
        &mesh.marks,
        rounds,
        weight,
        &mut plain,
        &mut plain_work,
    );
    let at = format!("rounds {rounds}, weight {weight}, rooms {second} and {work}");
    assert_eq!(number, expected, "{at}");
    assert_eq!(proved, plain, "second point list, {at}");
    assert_eq!(proved_work, plain_work, "work room, {at}");
    if number == 0 {
        assert!(proved_work.iter().all(|&n| n == 0), "work room, {at}");
    } else {
        assert_eq!((&proved, &proved_work), (&held, &room), "{at}");
    }
    (number, proved)
}

fn same(mesh: &Caller, rounds: u32, weight: u32) -> (u32, Vec<u32>) {
    same_in(mesh, rounds, weight, 3 * mesh.marks.len(), work(mesh))
}

/// Every round count and weight of interest that a call grants, and those that it refuses.
fn all_settings(mesh: &Caller, rounds: &[u32]) {
    for &rounds in rounds {
        for weight in [0, 1, 128, 255, 256, 257] {
            let (number, _) = same(mesh, rounds, weight);
            let refused = rounds > 100 || weight > 256;
            assert_eq!(number, if refused { 10 } else { 0 });
        }
    }
}

#[test]
fn extracted_meshes() {
    let mut seed = Seed::new(21);
    for sides in [[4, 4, 4], [7, 5, 6], [2, 9, 3]] {
        for bound in [2, 200] {
            all_settings(&extracted(&mut seed, sides, bound), &[0, 1, 2, 100, 101]);
        }
    }
    same(&extracted(&mut seed, [40, 40, 40], 1000), 3, 200);
}

#[test]
fn the_figure_of_document_01() {
    let mut samples = vec![0; 27];
    samples[13] = 100;
    let mesh = tools::mesh_of([3, 3, 3], 50, &samples);
    assert_eq!(same(&mesh, 1, 256), (0, vec![256; 18]));
    assert_eq!(same(&mesh, 0, 256), (0, mesh.points.clone()));
}

/// Points at made-up places, none marked but where told.
fn placed(seed: &mut Seed, count: usize, triangles: Vec<u32>) -> Caller {
    Caller {
        points: (0..3 * count).map(|_| seed.below(16_129) as u32).collect(),
        triangles,
        marks: vec![0; count],
    }
}

#[test]
fn meshes_made_by_hand() {
    let mut seed = Seed::new(22);
    let once = vec![0, 1, 2];
    let four_times = vec![0, 1, 2, 1, 0, 3, 0, 1, 4, 1, 0, 5];
    let fan = (1..=1000).flat_map(|i| [0, i, i + 1]).collect();
    let doubled = vec![0, 1, 2, 0, 1, 2, 2, 1, 0, 0, 2, 1];
    for (count, triangles) in [
        (3, once),
        (6, four_times),
        (1002, fan),
        (3, doubled),
        (9, vec![7, 2, 4]),
        (5, vec![]),
        (0, vec![]),
    ] {
        let mut mesh = placed(&mut seed, count, triangles);
        all_settings(&mesh, &[0, 1, 2, 100, 101]);
        for mark in mesh.marks.iter_mut() {
            *mark = seed.below(2) as u8;
        }
        all_settings(&mesh, &[0, 1, 2]);
    }
}

#[test]
fn a_neighbour_is_counted_once_and_marked_points_stay() {
    let mesh = Caller {
        points: vec![0, 0, 0, 90, 0, 0, 0, 60, 0, 0, 0, 30],
        triangles: vec![0, 1, 2, 0, 2, 1, 0, 1, 3],
        marks: vec![0, 1, 1, 1],
    };
    let (number, places) = same(&mesh, 1, 256);
    assert_eq!(number, 0);
    assert_eq!(places[..3], [30, 20, 10]);
    assert_eq!(places[3..], mesh.points[3..]);
}

#[test]
fn meshes_of_made_up_triangles() {
    let mut seed = Seed::new(23);
    for count in [3, 4, 10, 60] {
        for triangles in [1, 5, 40, 300] {
            let named = made_up_triangles(&mut seed, count, triangles);
            let mut mesh = placed(&mut seed, count as usize, named);
            for mark in mesh.marks.iter_mut() {
                *mark = (seed.below(5) == 0) as u8;
            }
            all_settings(&mesh, &[1, 3]);
        }
    }
}

#[test]
fn every_coordinate_at_the_limit() {
    let mut seed = Seed::new(24);
    let mut mesh = placed(
        &mut seed,
        1002,
        (1..=1000).flat_map(|i| [0, i, i + 1]).collect(),
    );
    mesh.points.fill(16_128);
    assert_eq!(same(&mesh, 100, 255), (0, mesh.points.clone()));
    mesh.points[..3].fill(0);
    all_settings(&mesh, &[1, 2, 100]);
}

#[test]
fn rooms_one_off() {
    let mut seed = Seed::new(25);
    let mesh = extracted(&mut seed, [5, 4, 6], 100);
    let (second, room) = (3 * mesh.marks.len(), work(&mesh));
    for (second, room, number) in [
        (second, room, 0),
        (second - 1, room, 3),
        (second + 1, room, 3),
        (second, room - 1, 3),
        (second, room + 1, 3),
        (0, 0, 3),
    ] {
        assert_eq!(same_in(&mesh, 2, 100, second, room).0, number);
    }
}

/// Each refusal made true or not, all 64 ways: the first that is true in the order 6, 7, 8, 9, 10, 3 is answered.
#[test]
fn refusals_in_order() {
    let mut seed = Seed::new(26);
    let whole = extracted(&mut seed, [3, 3, 3], 50);
    assert!(whole.triangles.len() > 6);
    for wrong in 0..64u32 {
        let mesh = spoiled(&whole, wrong);
        let second = 3 * whole.marks.len() + (wrong >> 5) as usize;
        let rounds = if wrong >> 4 & 1 == 1 { 101 } else { 1 };
        let (number, _) = same_in(&mesh, rounds, 256, second, work(&whole));
        assert_eq!(number, first_of(&[6, 7, 8, 9, 10, 3], wrong));
    }
}

#[test]
fn meshes_that_do_not_fit() {
    let mut seed = Seed::new(27);
    let named = |triangles: Vec<u32>, seed: &mut Seed| placed(seed, 4, triangles);
    for triangles in [
        vec![0, 1, 4],
        vec![0, 1, 2, 3, 3, 1],
        vec![0, 1, 0],
        vec![u32::MAX, 1, 2],
    ] {
        assert_eq!(same(&named(triangles, &mut seed), 1, 1).0, 7);
    }
    assert_eq!(same(&named(vec![0, 1], &mut seed), 1, 1).0, 6);
    let many = placed(&mut seed, 250_001, vec![]);
    assert_eq!(same(&many, 1, 1).0, 6);
    let most = placed(&mut seed, 250_000, vec![0, 1, 249_999]);
    assert_eq!(same(&most, 1, 256).0, 0);
}
