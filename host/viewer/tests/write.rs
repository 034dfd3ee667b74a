//! The text of a mesh: of small grids against what the reference's program prints, of any lists against a plain writer, byte for byte, and every byte of
//! the room.

#[path = "tools/castings.rs"]
mod castings;
mod tools;

use std::fmt::Write;

use castings::{ellipsoid, lattice, SIDE};
use tools::{first_of, made_up_triangles, noise, Seed};
use viewer::{text_room, Refusal, Shell, Surface, Written, MOST_POINTS, MOST_TRIANGLES};

fn line(text: &mut String, letter: char, numbers: &[&dyn std::fmt::Display]) {
    text.push(letter);
    for number in numbers {
        write!(text, "\t{number}").expect("a string takes any text");
    }
    text.push('\n');
}

fn shell_line(text: &mut String, s: &Shell) {
    let counts: [&dyn std::fmt::Display; 5] =
        [&s.low, &s.points, &s.triangles, &s.touches, &s.volume];
    let extents: [&dyn std::fmt::Display; 6] = [
        &s.least_x,
        &s.greatest_x,
        &s.least_y,
        &s.greatest_y,
        &s.least_z,
        &s.greatest_z,
    ];
    line(text, 'S', &[&counts[..], &extents[..]].concat());
}

/// The text, written plainly.
fn plain(surface: &Surface, records: &[Shell]) -> Vec<u8> {
    let (points, triangles) = (surface.marks.len(), surface.triangles.len() / 3);
    let mut text = String::new();
    line(&mut text, 'M', &[&points, &triangles, &records.len()]);
    let places = surface.points.chunks_exact(3);
    for ((edge, place), mark) in surface.edges.iter().zip(places).zip(&surface.marks) {
        let [x, y, z] = [0, 1, 2].map(|axis| place[axis]);
        line(&mut text, 'V', &[edge, &x, &y, &z, mark]);
    }
    for corners in surface.triangles.chunks_exact(3) {
        let [a, b, c] = [0, 1, 2].map(|place| corners[place]);
        line(&mut text, 'T', &[&a, &b, &c]);
    }
    for shell in records {
        shell_line(&mut text, shell);
    }
    text.into_bytes()
}

/// Whether the lengths are those of a mesh with an edge number a point, within the bounds.
fn fits(surface: &Surface, records: &[Shell]) -> bool {
    let (v, t) = (surface.marks.len(), surface.triangles.len());
    surface.points.len() == 3 * v
        && surface.edges.len() == v
        && t % 3 == 0
        && v <= 250_000
        && t / 3 <= 500_000
        && records.len() <= 250_000
}

/// Bytes after the last that is lent, which no call may write.
const BEYOND: usize = 9;

/// One call into a room of this length full of guard bytes; answers the number. The text goes to the front of the room, and all else stays.
fn same_in(surface: &Surface, records: &[Shell], text: &[u8], room: usize) -> u32 {
    let mut expected: Vec<u8> = (0..room + BEYOND).map(|i| 0xc3 ^ i as u8).collect();
    let mut proved = expected.clone();
    let refusal = match (fits(surface, records), text.len() <= room) {
        (false, _) => 6,
        (true, false) => 3,
        (true, true) => 0,
    };
    let mut length = 0;
    if refusal == 0 {
        length = text.len();
        expected[..length].copy_from_slice(text);
    }
    let found = viewer::write(surface.mesh(), &surface.edges, records, &mut proved[..room]);
    let number = refusal;
    assert_eq!(found, Written { number, length });
    assert!(proved == expected, "a room of {room}, refusal {refusal}");
    refusal
}

/// Granted calls into rooms that are just long enough, longer, and as long as any text can be, and refused ones into rooms that are too short.
fn same(surface: &Surface, records: &[Shell]) -> Vec<u8> {
    let text = plain(surface, records);
    let long = text.len();
    let counts = (surface.marks.len(), surface.triangles.len() / 3);
    let enough = text_room(counts.0, counts.1, records.len());
    assert!(long <= enough);
    for room in [long, long + 1, long + 300, enough] {
        assert_eq!(same_in(surface, records, &text, room), 0);
    }
    for room in [long - 1, long / 2, 0] {
        assert_eq!(same_in(surface, records, &text, room), 3);
    }
    assert_eq!(surface.write(records).as_deref(), Ok(&text[..]));
    text
}

/// The same with the surface's own records.
fn same_listed(surface: &Surface) -> Vec<u8> {
    same(surface, &surface.shells().unwrap().records)
}

#[test]
fn the_example_of_document_02() {
    let samples = [100, 0, 0, 0, 0, 0, 0, 0];
    let surface = Surface::extract([2, 2, 2], 50, &samples).unwrap();
    assert_eq!(
        same_listed(&surface),
        b"M\t3\t1\t1\nV\t0\t128\t0\t0\t1\nV\t1\t0\t128\t0\t1\nV\t2\t0\t0\t128\t1\nT\t0\t1\t2\nS\t0\t3\t1\t1\t2097152\t0\t128\t0\t128\t0\t128\n"
    );
}

/// What the reference's program prints for a grid.
fn printed(sides: [u32; 3], grey: u16, rounds: u32, weight: u32, samples: &[u16]) -> Vec<u8> {
    let [nx, ny, nz] = sides;
    let mut text = format!("G\t{nx}\t{ny}\t{nz}\t{grey}\t{rounds}\t{weight}\n");
    for row in samples.chunks(nx as usize) {
        let fields: Vec<String> = row.iter().map(u16::to_string).collect();
        text += &(fields.join("\t") + "\n");
    }
    reference::text::run(text.as_bytes())
}

#[test]
fn small_grids_as_the_reference_prints_them() {
    let mut seed = Seed::new(61);
    for sides in [[2, 2, 2], [3, 3, 3], [8, 8, 8], [64, 2, 4], [2, 13, 19]] {
        for bound in [2, 20, 65_536] {
            for (rounds, weight) in [(0, 0), (1, 256), (7, 100)] {
                let (samples, grey) = (noise(&mut seed, sides, bound), (bound / 2) as u16);
                let raw = Surface::extract(sides, grey, &samples).unwrap();
                let surface = raw.smooth(rounds, weight).unwrap();
                let text = same_listed(&surface);
                assert!(text == printed(sides, grey, rounds, weight, &samples));
            }
        }
    }
}

#[test]
fn extracted_meshes_raw_and_smoothed() {
    let mut seed = Seed::new(62);
    for sides in [[4, 4, 4], [7, 5, 6], [2, 9, 3], [16, 12, 14]] {
        for bound in [2, 20, 65_536] {
            let samples = noise(&mut seed, sides, bound);
            let raw = Surface::extract(sides, (bound / 2) as u16, &samples).unwrap();
            same_listed(&raw);
            same_listed(&raw.smooth(3, 200).unwrap());
        }
    }
}

#[test]
fn castings_of_many_voids() {
    for voids in [1, 9, 300] {
        let mut samples = vec![1000; SIDE.pow(3)];
        let (length, middles) = lattice(voids, 1.0);
        for s in middles.flat_map(|middle| ellipsoid(middle, [length / 3.0; 3])) {
            samples[s] = 100;
        }
        let raw = Surface::extract([SIDE as u32; 3], 550, &samples).unwrap();
        let text = same_listed(&raw.smooth(2, 64).unwrap());
        let lines = text.split(|&byte| byte == b'\n');
        assert_eq!(lines.filter(|line| line.starts_with(b"S\t")).count(), voids);
    }
}

/// A number of any length up to 32 bits.
fn number(seed: &mut Seed) -> u32 {
    let digits = seed.below(33);
    (seed.next() & ((1 << digits) - 1)) as u32
}

fn record(seed: &mut Seed, volume: i64) -> Shell {
    Shell {
        low: number(seed),
        points: number(seed),
        triangles: number(seed),
        touches: number(seed),
        volume,
        least_x: number(seed),
        greatest_x: number(seed),
        least_y: number(seed),
        greatest_y: number(seed),
        least_z: number(seed),
        greatest_z: number(seed),
    }
}

/// Lists of numbers of any length, which are those of no mesh, and records of these volumes.
fn numbers(
    seed: &mut Seed,
    points: usize,
    triangles: usize,
    volumes: &[i64],
) -> (Surface, Vec<Shell>) {
    let mut some = |count: usize| (0..count).map(|_| number(seed)).collect();
    let surface = Surface {
        points: some(3 * points),
        edges: some(points),
        marks: (0..points).map(|i| i as u8).collect(),
        triangles: some(3 * triangles),
    };
    let records = volumes.iter().map(|&volume| record(seed, volume)).collect();
    (surface, records)
}

/// Every power of ten that a number of 64 bits can be, its neighbours, and the ends.
fn volumes() -> Vec<i64> {
    let powers = (0..19).flat_map(|power| {
        let ten = 10i64.pow(power);
        [ten - 1, ten, ten + 1, -ten - 1, -ten, 1 - ten]
    });
    [i64::MIN, i64::MIN + 1, i64::MAX - 1, i64::MAX]
        .into_iter()
        .chain(powers)
        .collect()
}

#[test]
fn numbers_of_any_length() {
    let mut seed = Seed::new(63);
    for (points, triangles) in [(0, 0), (1, 0), (0, 1), (256, 3), (700, 1900)] {
        for volumes in [&[][..], &[-1], &volumes()] {
            let (surface, records) = numbers(&mut seed, points, triangles, volumes);
            same(&surface, &records);
        }
    }
}

/// Every power of ten that a number of 32 bits can be, its neighbours, and the end, at every place of a line; every mark that a byte can be.
#[test]
fn powers_of_ten_at_every_place() {
    let powers = (0..10).flat_map(|power| {
        let ten = 10u32.pow(power);
        [ten - 1, ten, ten + 1]
    });
    for n in powers.chain([u32::MAX - 1, u32::MAX]) {
        let surface = Surface {
            points: [[n, 7, 7], [7, n, 7], [7, 7, n], [n; 3]].concat(),
            edges: vec![n; 4],
            marks: vec![n as u8; 4],
            triangles: [[n, 7, 7], [7, n, 7], [7, 7, n]].concat(),
        };
        let record = Shell {
            low: n,
            triangles: n,
            least_x: n,
            greatest_y: n,
            ..Shell::default()
        };
        let other = Shell {
            points: n,
            touches: n,
            greatest_x: n,
            least_y: n,
            least_z: n,
            greatest_z: n,
            ..Shell::default()
        };
        same(&surface, &[record, other]);
    }
}

const NONE: Surface = Surface {
    points: Vec::new(),
    edges: Vec::new(),
    marks: Vec::new(),
    triangles: Vec::new(),
};

#[test]
fn an_empty_mesh() {
    assert_eq!(same_listed(&NONE), b"M\t0\t0\t0\n");
    let text = same(&NONE, &[Shell::default()]);
    assert_eq!(text, b"M\t0\t0\t1\nS\t0\t0\t0\t0\t0\t0\t0\t0\t0\t0\t0\n");
}

/// Lists of these lengths and records that hold one number everywhere, as far as a mark, which is a byte, can hold it.
fn filled(n: u32, volume: i64, [points, triangles, shells]: [usize; 3]) -> (Surface, Vec<Shell>) {
    let surface = Surface {
        points: vec![n; 3 * points],
        edges: vec![n; points],
        marks: vec![n as u8; points],
        triangles: vec![n; 3 * triangles],
    };
    let record = Shell {
        low: n,
        points: n,
        triangles: n,
        touches: n,
        volume,
        least_x: n,
        greatest_x: n,
        least_y: n,
        greatest_y: n,
        least_z: n,
        greatest_z: n,
    };
    (surface, vec![record; shells])
}

#[test]
fn the_room_of_a_text() {
    for counts in [[0, 0, 0], [1, 0, 0], [0, 1, 0], [0, 0, 1], [9, 12, 3]] {
        let [points, triangles, shells] = counts;
        let (surface, records) = filled(u32::MAX, i64::MIN, counts);
        let spare = text_room(points, triangles, shells) - same(&surface, &records).len();
        // Counts take as many digits as they have, and a mark has three.
        let digits: usize = counts.iter().map(|count| count.to_string().len()).sum();
        assert_eq!(spare, 30 - digits + 7 * points);
    }
}

/// The header's own sum for the room of a text is the wrapper's.
#[test]
fn the_header_has_the_same_room() {
    let header = include_str!("../../../include/tholbrina.h");
    let none = text_room(0, 0, 0);
    let [point, triangle, shell] =
        [text_room(1, 0, 0), text_room(0, 1, 0), text_room(0, 0, 1)].map(|room| room - none);
    let sum = format!("{none} + {point} * points + {triangle} * triangles + {shell} * shells");
    assert_eq!(header.matches(&format!("  return {sum};\n")).count(), 1);
}

/// As many points, triangles and records as there may be are taken, and one more of any is refused.
#[test]
fn counts_at_the_limits() {
    let most = [MOST_POINTS, MOST_TRIANGLES, MOST_POINTS];
    let (surface, records) = filled(0, 0, most);
    let text = plain(&surface, &records);
    assert_eq!(same_in(&surface, &records, &text, text.len()), 0);
    assert_eq!(same_in(&surface, &records, &text, text.len() - 1), 3);
    for over in 0..3 {
        let mut counts = [0; 3];
        counts[over] = most[over] + 1;
        let (surface, records) = filled(0, 0, counts);
        for room in [0, 100, text_room(counts[0], counts[1], counts[2])] {
            assert_eq!(same_in(&surface, &records, &[], room), 6);
        }
        assert_eq!(surface.write(&records), Err(Refusal::Lengths));
    }
}

/// Lists that are one longer or shorter than they should be.
#[test]
fn lengths_that_do_not_fit() {
    let mut seed = Seed::new(64);
    let (whole, records) = numbers(&mut seed, 5, 4, &[1, -1]);
    let text = plain(&whole, &records);
    let changes: [fn(&mut Surface); 8] = [
        |surface| surface.points.push(1),
        |surface| surface.points.truncate(14),
        |surface| surface.edges.push(1),
        |surface| surface.edges.truncate(4),
        |surface| surface.marks.push(1),
        |surface| surface.marks.truncate(4),
        |surface| surface.triangles.push(1),
        |surface| surface.triangles.truncate(11),
    ];
    for change in changes {
        let mut surface = whole.clone();
        change(&mut surface);
        for room in [0, text.len() - 1, text.len(), text_room(9, 9, 9)] {
            assert_eq!(same_in(&surface, &records, &[], room), 6);
        }
        assert_eq!(surface.write(&records), Err(Refusal::Lengths));
    }
}

/// Each ground for a refusal made true or not, all 32 ways: 6 comes before 3.
#[test]
fn refusals_in_order() {
    let mut seed = Seed::new(65);
    let (whole, few) = numbers(&mut seed, 6, 5, &[7]);
    let many = vec![few[0]; MOST_POINTS + 1];
    for wrong in 0..32u32 {
        let is = |bit: u32| wrong >> bit & 1 == 1;
        let mut surface = whole.clone();
        if is(0) {
            surface.points.push(1);
        }
        if is(1) {
            surface.edges.push(1);
        }
        if is(2) {
            surface.triangles.push(1);
        }
        let records = if is(3) { &many } else { &few };
        let text = plain(&whole, &few);
        let room = text.len() - usize::from(is(4));
        let number = same_in(&surface, records, &text, room);
        assert_eq!(number, first_of(&[6, 6, 6, 6, 3], wrong));
    }
}

/// Records and corners that are not the mesh's own are written as they stand.
#[test]
fn records_that_are_not_the_mesh_s() {
    let mut seed = Seed::new(66);
    let mut surface = NONE;
    surface.triangles = made_up_triangles(&mut seed, 60, 40);
    let (_, records) = filled(u32::MAX, i64::MAX, [0, 0, 7]);
    same(&surface, &records);
}
