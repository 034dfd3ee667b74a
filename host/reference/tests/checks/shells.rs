//! The list of shells.

use crate::smooth::smoothed;
use crate::tools::{
    extracted, faulty_meshes, guarded_records, random_grid, random_mesh, small_mesh, Grid, Mesh,
    Random,
};
use reference::shells::{shells, Listed, Shell};

#[derive(Clone, PartialEq, Debug)]
struct Rooms {
    numbers: Vec<u32>,
    records: Vec<Shell>,
    work: Vec<u32>,
}

impl Rooms {
    /// Rooms of these lengths, full of values that no call writes.
    fn guarded(numbers: usize, records: usize, work: usize) -> Rooms {
        Rooms {
            numbers: (0..numbers as u32).map(|i| 2_000_000_000 + i).collect(),
            records: guarded_records(records),
            work: (0..work as u32).map(|i| 4_000_000_000 + i).collect(),
        }
    }

    fn list(&mut self, mesh: &Mesh) -> Listed {
        shells(
            &mesh.points,
            &mesh.triangles,
            &mesh.marks,
            &mut self.numbers,
            &mut self.records,
            &mut self.work,
        )
    }
}

fn assert_refused(mesh: &Mesh, rooms: &Rooms, number: u32) {
    let mut after = rooms.clone();
    assert_eq!(after.list(mesh), Listed { number, shells: 0 });
    let mut wanted = rooms.clone();
    if number == 11 {
        wanted.work.fill(0);
    }
    assert_eq!(after, wanted);
}

/// The shell numbers and records of a mesh; two records are lent too many and
/// stay.
fn listed(mesh: &Mesh) -> (Vec<u32>, Vec<Shell>) {
    let v = mesh.marks.len();
    let before = Rooms::guarded(v, v + 2, 2 * v);
    let mut rooms = before.clone();
    let answer = rooms.list(mesh);
    assert_eq!(answer.number, 0);
    let count = answer.shells as usize;
    assert_eq!(rooms.records[count..], before.records[count..]);
    assert!(rooms.work.iter().all(|&number| number == 0));
    rooms.records.truncate(count);
    (rooms.numbers, rooms.records)
}

#[test]
fn centre_figure() {
    let (mut mesh, _) = extracted(&Grid::centre());
    let mut record = Shell {
        low: 0,
        points: 6,
        triangles: 8,
        touches: 0,
        volume: 16_777_216,
        least: [128; 3],
        greatest: [384; 3],
    };
    assert_eq!(listed(&mesh), (vec![0; 6], vec![record]));
    mesh.points = smoothed(&mesh, 1, 256);
    record.volume = 0;
    (record.least, record.greatest) = ([256; 3], [256; 3]);
    assert_eq!(listed(&mesh), (vec![0; 6], vec![record]));
}

/// The box of a shell, as the least and the greatest place.
fn boxes(mesh: &Mesh) -> Vec<([u32; 3], [u32; 3])> {
    let (_, records) = listed(mesh);
    records.iter().map(|r| (r.least, r.greatest)).collect()
}

/// Two triangles, the second within the first one's box, and three points by
/// themselves. Point 1, the lowest of the first triangle, is at none of its
/// extremes, and point 8 shares its place.
#[test]
fn boxes_made_by_hand() {
    let mesh = Mesh {
        points: [
            [7, 16_128, 0],
            [500, 600, 700],
            [0, 0, 16_128],
            [450, 550, 710],
            [100, 900, 650],
            [800, 200, 750],
            [460, 540, 720],
            [470, 530, 715],
            [500, 600, 700],
        ]
        .concat(),
        triangles: vec![5, 4, 1, 3, 7, 6],
        marks: vec![0; 9],
    };
    let wanted = [
        ([7, 16_128, 0], [7, 16_128, 0]),
        ([100, 200, 650], [800, 900, 750]),
        ([0, 0, 16_128], [0, 0, 16_128]),
        ([450, 530, 710], [470, 550, 720]),
        ([500, 600, 700], [500, 600, 700]),
    ];
    assert_eq!(boxes(&mesh), wanted);
}

#[test]
fn a_void_counts_negative() {
    let mut grid = Grid::filled([3, 3, 3], 50, 100);
    grid.set([1, 1, 1], 0);
    let (_, records) = listed(&extracted(&grid).0);
    assert_eq!(records.len(), 1);
    assert_eq!(records[0].volume, -16_777_216);
}

/// The walk starts at the lowest point although the first triangle names
/// another shell.
#[test]
fn shells_are_numbered_by_their_lowest_point() {
    let mesh = Mesh {
        points: (0..24).collect(),
        triangles: vec![7, 5, 3, 6, 4, 1, 1, 4, 0],
        marks: vec![0, 0, 0, 0, 0, 1, 0, 0],
    };
    let (numbers, records) = listed(&mesh);
    assert_eq!(numbers, [0, 0, 1, 2, 0, 2, 0, 2]);
    let heads: Vec<_> = records
        .iter()
        .map(|r| (r.low, r.points, r.triangles, r.touches))
        .collect();
    assert_eq!(heads, [(0, 4, 2, 0), (2, 1, 0, 0), (3, 3, 1, 1)]);
}

/// Labels that sink to the least along each triangle until nothing changes.
fn least_labels(mesh: &Mesh) -> Vec<usize> {
    let mut labels: Vec<usize> = (0..mesh.marks.len()).collect();
    loop {
        let before = labels.clone();
        for t in mesh.triangles.chunks(3) {
            let least = t.iter().map(|&p| labels[p as usize]).min().unwrap();
            for &p in t {
                labels[p as usize] = least;
            }
        }
        if labels == before {
            return labels;
        }
    }
}

/// The determinant by its six products.
fn determinant(mesh: &Mesh, triangle: &[u32]) -> i128 {
    let at = |row: usize, axis: usize| i128::from(mesh.points[3 * triangle[row] as usize + axis]);
    [
        (0, 1, 2, 1),
        (1, 2, 0, 1),
        (2, 0, 1, 1),
        (2, 1, 0, -1),
        (1, 0, 2, -1),
        (0, 2, 1, -1),
    ]
    .iter()
    .map(|&(a, b, c, sign)| sign * at(0, a) * at(1, b) * at(2, c))
    .sum()
}

/// The coordinates of some points along an axis, in rising order.
fn along(mesh: &Mesh, points: impl Iterator<Item = usize>, axis: usize) -> Vec<u32> {
    let mut coordinates: Vec<u32> = points.map(|p| mesh.points[3 * p + axis]).collect();
    coordinates.sort_unstable();
    coordinates
}

fn assert_list_is_right(mesh: &Mesh) {
    let labels = least_labels(mesh);
    let lowest: Vec<usize> = (0..labels.len()).filter(|&p| labels[p] == p).collect();
    let wanted_numbers: Vec<u32> = labels
        .iter()
        .map(|label| lowest.binary_search(label).unwrap() as u32)
        .collect();
    let wanted_records: Vec<Shell> = lowest
        .iter()
        .map(|&low| {
            let members = || (0..labels.len()).filter(|&p| labels[p] == low);
            let triangles = || {
                mesh.triangles
                    .chunks(3)
                    .filter(|t| labels[t[2] as usize] == low)
            };
            let volume: i128 = triangles().map(|t| determinant(mesh, t)).sum();
            Shell {
                low: low as u32,
                points: members().count() as u32,
                triangles: triangles().count() as u32,
                touches: u32::from(members().any(|p| mesh.marks[p] == 1)),
                volume: volume as i64,
                least: [0, 1, 2].map(|axis| along(mesh, members(), axis)[0]),
                greatest: [0, 1, 2].map(|axis| *along(mesh, members(), axis).last().unwrap()),
            }
        })
        .collect();
    assert_eq!(listed(mesh), (wanted_numbers, wanted_records));
}

#[test]
fn random_meshes_agree_with_sinking_labels() {
    let mut random = Random::new(31);
    for _ in 0..200 {
        let v = 3 + random.below(40);
        let t = random.below(v);
        let mesh = random_mesh(&mut random, v, t, 16_128);
        assert_list_is_right(&mesh);
    }
    for _ in 0..40 {
        assert_list_is_right(&extracted(&random_grid(&mut random)).0);
    }
}

/// "So a shell with no point on an outer face is closed": its volume does not
/// change when the mesh is moved.
#[test]
fn untouched_shells_are_closed() {
    let mut random = Random::new(32);
    let mut closed = 0;
    for _ in 0..100 {
        let mut grid = Grid::filled([9, 8, 7], 40_000, 0);
        for z in 1..6 {
            for y in 1..7 {
                for x in 1..8 {
                    grid.set([x, y, z], random.below(65_536) as u16);
                }
            }
        }
        let (mesh, _) = extracted(&grid);
        let (_, records) = listed(&mesh);
        let mut moved = mesh.clone();
        moved.points.iter_mut().for_each(|c| *c += 1000);
        let (_, moved_records) = listed(&moved);
        for (one, other) in records.iter().zip(&moved_records) {
            if one.touches == 0 {
                closed += 1;
                assert_eq!(one.volume, other.volume);
            }
        }
    }
    assert!(closed > 100);
}

#[test]
fn the_largest_volume_is_kept() {
    let m = 16_128;
    let mut mesh = Mesh {
        points: vec![m, m, 0, 0, m, m, m, 0, m],
        triangles: [0, 1, 2].repeat(500_000),
        marks: vec![0; 3],
    };
    let most = 2 * i64::from(m).pow(3) * 500_000;
    assert_eq!(listed(&mesh).1[0].volume, most);
    mesh.triangles = [0, 2, 1].repeat(500_000);
    assert_eq!(listed(&mesh).1[0].volume, -most);
}

#[test]
fn too_few_records_are_refused_with_11() {
    let mesh = small_mesh();
    for records in 0..2 {
        assert_refused(&mesh, &Rooms::guarded(5, records, 10), 11);
    }
    let mut rooms = Rooms::guarded(5, 2, 10);
    assert_eq!(
        rooms.list(&mesh),
        Listed {
            number: 0,
            shells: 2
        }
    );
}

#[test]
fn rooms_have_exact_lengths() {
    let mesh = small_mesh();
    for (numbers, work) in [(4, 10), (6, 10), (5, 9), (5, 11), (0, 0)] {
        for records in [0, 5] {
            assert_refused(&mesh, &Rooms::guarded(numbers, records, work), 3);
        }
    }
}

#[test]
fn faulty_meshes_are_refused_before_anything_else() {
    for (number, mesh) in faulty_meshes() {
        for rooms in [
            Rooms::guarded(5, 5, 10),
            Rooms::guarded(5, 0, 10),
            Rooms::guarded(4, 0, 9),
        ] {
            assert_refused(&mesh, &rooms, number);
        }
    }
}

#[test]
fn an_empty_mesh_has_no_shell() {
    let mesh = Mesh {
        points: vec![],
        triangles: vec![],
        marks: vec![],
    };
    assert_eq!(listed(&mesh), (vec![], vec![]));
    let mut rooms = Rooms::guarded(0, 0, 0);
    assert_eq!(
        rooms.list(&mesh),
        Listed {
            number: 0,
            shells: 0
        }
    );
}
