//! A mesh's text read back, against the reference: the number, the line, the counts, and every place of every room and around it. The meshes of the other
//! tests are written and read; texts are spoiled byte by byte, line by line and at random; every set of refusals is tried; counts, numbers and volumes stand
//! at their limits.

#[path = "tools/castings.rs"]
mod castings;
#[path = "tools/reading.rs"]
mod reading;
#[path = "tools/texts.rs"]
mod texts;
mod tools;

use std::collections::BTreeMap;

use castings::{ellipsoid, lattice, SIDE};
use reading::{same_in, same_owned, Held, Lent};
use texts::{
    bad_fields, bad_heads, bad_lines, is_volume, line_of, lost_lines, number_fields, spoil, tabbed,
    with_field, with_line, BAD_VOLUMES, GOOD_VOLUMES,
};
use tools::{
    by_hand, checkerboard, first_of, made_up_triangles, noise, placed, shuffled, Caller, Seed,
};
use viewer::{read_work, Read, Refusal, Shell, Surface, MOST_POINTS, MOST_TRIANGLES};

/// A mesh with its records is written as this text and read as the same mesh, into rooms without and with spare.
fn read_again(surface: &Surface, records: &[Shell], text: &[u8]) {
    let exact = Lent::of(surface, records);
    let granted = Read {
        number: 0,
        line: 0,
        points: surface.marks.len() as u32,
        triangles: surface.triangles.len() as u32 / 3,
        shells: records.len() as u32,
    };
    for lent in [exact, exact.long()] {
        let (found, rooms) = same_in(text, lent);
        assert_eq!(found, granted);
        assert!(rooms == Held::guarded(lent).filled(surface, records));
    }
}

/// A mesh is written and read, into exact and long rooms and none that is too short; read and written it is the same text.
fn both_ways(surface: &Surface) -> Vec<u8> {
    let records = surface.shells().unwrap().records;
    let text = surface.write(&records).unwrap();
    read_again(surface, &records, &text);
    for (number, lent) in Lent::of(surface, &records).one_off() {
        assert_eq!(same_in(&text, lent).0.number, number, "{lent:?}");
    }
    same_owned(&text);
    text
}

/// Document 02's example, with spaces for tabs.
const EXAMPLE: &str = "M 3 1 1
V 0 128 0 0 1
V 1 0 128 0 1
V 2 0 0 128 1
T 0 1 2
S 0 3 1 1 2097152 0 128 0 128 0 128
";

#[test]
fn the_example_of_document_02() {
    let surface = Surface {
        points: vec![128, 0, 0, 0, 128, 0, 0, 0, 128],
        edges: vec![0, 1, 2],
        marks: vec![1; 3],
        triangles: vec![0, 1, 2],
    };
    let record = Shell {
        points: 3,
        triangles: 1,
        touches: 1,
        volume: 2_097_152,
        greatest_x: 128,
        greatest_y: 128,
        greatest_z: 128,
        ..Shell::default()
    };
    let text = tabbed(EXAMPLE);
    assert_eq!(both_ways(&surface), text.as_bytes());
    assert_eq!(Surface::read(text.as_bytes()), Ok((surface, vec![record])));
}

#[test]
fn an_empty_mesh() {
    let none = Surface {
        points: vec![],
        edges: vec![],
        marks: vec![],
        triangles: vec![],
    };
    assert_eq!(both_ways(&none), b"M\t0\t0\t0\n");
}

/// The header's own sum for the work room is the wrapper's.
#[test]
fn the_header_has_the_same_work_room() {
    let header = include_str!("../../../include/tholbrina.h");
    let (point, triangle) = (read_work(1, 0), read_work(0, 1));
    assert_eq!(read_work(7, 9), 7 * point + 9 * triangle);
    let sum = format!("{point} * points + {triangle} * triangles");
    assert_eq!(header.matches(&format!("  return {sum};\n")).count(), 1);
}

/// The mesh of a grid, raw and after some rounds.
fn grid_both_ways(sides: [u32; 3], grey: u16, samples: &[u16]) {
    let raw = Surface::extract(sides, grey, samples).unwrap();
    both_ways(&raw);
    both_ways(&raw.smooth(3, 200).unwrap());
}

#[test]
fn each_case_as_a_grid_of_one_cube() {
    for case in 0..=255u32 {
        let samples: Vec<u16> = (0..8)
            .map(|corner| if case >> corner & 1 == 1 { 100 } else { 0 })
            .collect();
        grid_both_ways([2, 2, 2], 50, &samples);
    }
}

#[test]
fn grids_of_every_shape_up_to_eight() {
    let mut seed = Seed::new(71);
    for nx in 2..=8 {
        for ny in 2..=8 {
            for nz in 2..=8 {
                let bound = [2, 3, 256, 65_536][seed.below(4) as usize];
                let samples = noise(&mut seed, [nx, ny, nz], bound);
                let raw = Surface::extract([nx, ny, nz], (bound / 2) as u16, &samples).unwrap();
                both_ways(&raw.smooth(seed.below(3) as u32, 200).unwrap());
            }
        }
    }
}

#[test]
fn long_grids_and_checkerboards() {
    let mut seed = Seed::new(72);
    for sides in [[64, 2, 4], [2, 13, 19], [16, 12, 14], [63, 5, 3]] {
        grid_both_ways(sides, 500, &checkerboard(sides));
        grid_both_ways(sides, 100, &noise(&mut seed, sides, 1000));
    }
}

#[test]
fn castings_of_many_voids() {
    for voids in [9, 300] {
        let mut samples = vec![1000; SIDE.pow(3)];
        let (length, middles) = lattice(voids, 1.0);
        for s in middles.flat_map(|middle| ellipsoid(middle, [length / 3.0; 3])) {
            samples[s] = 100;
        }
        let raw = Surface::extract([SIDE as u32; 3], 550, &samples).unwrap();
        let text = both_ways(&raw.smooth(2, 64).unwrap());
        let lines = text.split(|&byte| byte == b'\n');
        assert_eq!(lines.filter(|line| line.starts_with(b"S\t")).count(), voids);
    }
}

/// A caller's mesh with rising edge numbers, some apart.
fn edged(seed: &mut Seed, mesh: Caller) -> Surface {
    let step = u64::from(u32::MAX) / (mesh.marks.len() as u64 + 1);
    let edges = (0..mesh.marks.len() as u64).map(|i| (i * step + seed.below(step)) as u32);
    Surface {
        points: mesh.points,
        edges: edges.collect(),
        marks: mesh.marks,
        triangles: mesh.triangles,
    }
}

/// As they are made, with every coordinate the least or the greatest that there may be, and with all points in one place.
#[test]
fn meshes_made_by_hand() {
    let mut seed = Seed::new(73);
    for (count, triangles) in by_hand() {
        let mesh = placed(&mut seed, count, triangles);
        let mut surface = edged(&mut seed, mesh);
        both_ways(&surface);
        for coordinate in &mut surface.points {
            *coordinate = 16_128 * seed.below(2) as u32;
        }
        both_ways(&surface);
        surface.points = [16_128, 0, 5000].repeat(count);
        both_ways(&surface);
    }
}

#[test]
fn meshes_of_made_up_triangles() {
    let mut seed = Seed::new(74);
    for count in [3u64, 10, 60, 2000] {
        for triangles in [1, 5, 40, 700] {
            let named = made_up_triangles(&mut seed, count, triangles);
            let mesh = placed(&mut seed, count as usize, named);
            both_ways(&edged(&mut seed, mesh));
        }
    }
}

/// Chains of many points, joined from the far end and in a made-up order: one shell each.
#[test]
fn chains() {
    let mut seed = Seed::new(80);
    let links: Vec<[u32; 3]> = (0..19_998).map(|i| [i, i + 1, i + 2]).collect();
    let falling: Vec<[u32; 3]> = links.iter().rev().copied().collect();
    for triangles in [falling.concat(), shuffled(&mut seed, links)] {
        let mesh = placed(&mut seed, 20_000, triangles);
        let text = both_ways(&edged(&mut seed, mesh));
        assert!(text.starts_with(b"M\t20000\t19998\t1\n"));
    }
}

/// A tetrahedron and a point by itself: its text has V lines 2 to 6, T lines 7 to 10 and S lines 11 and 12.
fn small() -> Surface {
    Surface {
        points: vec![
            100, 100, 100, 900, 120, 80, 200, 800, 140, 300, 260, 700, 5, 6, 7,
        ],
        edges: vec![5, 6, 90, 1 << 31, u32::MAX - 1],
        marks: vec![0, 1, 0, 0, 0],
        triangles: vec![0, 2, 1, 0, 1, 3, 1, 2, 3, 2, 0, 3],
    }
}

fn text_of(surface: &Surface) -> String {
    String::from_utf8(both_ways(surface)).unwrap()
}

/// Texts to spoil: the example, the small mesh, the small mesh with places at the limits and turned inside out, a void, a grid of noise, and a mesh of seven
/// shells, of which four are points by themselves.
fn to_spoil() -> Vec<String> {
    let mut far = small();
    far.points[3..9].fill(16_128);
    far.points[12..].fill(16_128);
    let mut turned = far.clone();
    turned.triangles.reverse();
    let mut samples = [100; 27];
    samples[13] = 0;
    let void = Surface::extract([3, 3, 3], 50, &samples).unwrap();
    let noisy = noise(&mut Seed::new(75), [3, 2, 3], 60_000);
    let noisy = Surface::extract([3, 2, 3], 30_000, &noisy).unwrap();
    let mut seed = Seed::new(79);
    let apart = placed(&mut seed, 13, vec![2, 11, 4, 7, 1, 12, 9, 5, 8, 5, 9, 8]);
    let meshes = [small(), far, turned, void, noisy, edged(&mut seed, apart)];
    let mut texts = vec![tabbed(EXAMPLE)];
    texts.extend(meshes.iter().map(text_of));
    texts
}

/// Room for what line 1 of a text says, where that is little.
fn fitting(text: &[u8]) -> Option<Lent> {
    let counted = viewer::read_counts(text);
    let counts = [counted.points, counted.triangles, counted.shells];
    let little = counted.number == 0 && counts.iter().all(|&count| count < 2000);
    little.then(|| Lent::exact(counts.map(|count| count as usize)))
}

/// A text of which parts were changed, in the rooms of the text before, and where its line 1 was changed in rooms for what that says; owned and written
/// again if it is granted. Answers the number and the line.
fn same(text: &[u8], lent: Lent) -> (u32, u64) {
    let mut found = same_in(text, lent).0;
    if let Some(own) = fitting(text).filter(|&own| own != lent) {
        found = same_in(text, own).0;
    }
    if found.number == 0 {
        same_owned(text);
    }
    (found.number, found.line)
}

/// Counts how often each number is answered.
#[derive(Default, Debug)]
struct Seen(BTreeMap<u32, u32>);

impl Seen {
    fn take(&mut self, (number, _): (u32, u64)) {
        *self.0.entry(number).or_default() += 1;
    }

    /// Each of these is answered at least so often.
    fn often(&self, numbers: &[u32], least: u32) {
        for number in numbers {
            assert!(self.0.get(number) >= Some(&least), "{number} in {self:?}");
        }
    }
}

/// What may stand in a text by mistake: bytes that mean something in it, bytes beside them, and bytes that mean nothing.
const BYTES: &[u8] = b"\0\t\n\x0b\r +-./012569:MSTV\xff";

/// Each byte in the place of each byte of a text.
fn bytes_changed(text: &str, bytes: &[u8], seen: &mut Seen) {
    let lent = fitting(text.as_bytes()).unwrap();
    let mut spoiled = text.as_bytes().to_vec();
    for at in 0..text.len() {
        for &byte in bytes {
            spoiled[at] = byte;
            seen.take(same(&spoiled, lent));
        }
        spoiled[at] = text.as_bytes()[at];
    }
}

#[test]
fn a_byte_changed() {
    let mut seen = Seen::default();
    let every: Vec<u8> = (0..=255).collect();
    bytes_changed(&tabbed(EXAMPLE), &every, &mut seen);
    for text in &to_spoil()[1..] {
        bytes_changed(text, BYTES, &mut seen);
    }
    seen.often(&[0, 7, 8, 9, 16], 50);
    seen.often(&[15], 30_000);
}

#[test]
fn bytes_dropped_put_in_and_exchanged() {
    let mut seen = Seen::default();
    for (n, text) in to_spoil().iter().enumerate() {
        let (lent, text) = (fitting(text.as_bytes()).unwrap(), text.as_bytes());
        for at in 0..text.len() {
            let (front, rest) = text.split_at(at);
            seen.take(same(&[front, &rest[1..]].concat(), lent));
            seen.take(same(&[front, &rest[..1], rest].concat(), lent));
            if let [first, second, rest @ ..] = rest {
                seen.take(same(&[front, &[*second, *first], rest].concat(), lent));
            }
            for &byte in if n < 2 { BYTES } else { &[] } {
                seen.take(same(&[front, &[byte], rest].concat(), lent));
            }
        }
    }
    seen.often(&[0, 7, 8, 15, 16], 20);
    seen.often(&[9], 8);
}

/// Texts cut at every byte. What was cut off follows in memory, where no call may look, and it is the rest of a text that would be granted.
#[test]
fn texts_cut_at_every_byte() {
    for text in to_spoil() {
        let (lent, text) = (fitting(text.as_bytes()).unwrap(), text.as_bytes());
        for at in 0..text.len() {
            let lines = text[..at].iter().filter(|&&byte| byte == b'\n').count() as u64;
            assert_eq!(same(&text[..at], lent), (15, lines + 1));
        }
        for more in ["0", "\n", "\0", "S\t0", "V\t0\t0\t0\t0\t0\n"] {
            let longer = [text, more.as_bytes()].concat();
            let lines = text.iter().filter(|&&byte| byte == b'\n').count() as u64;
            assert_eq!(same(&longer, lent), (15, lines + 1));
            assert_eq!(same(&longer[..text.len()], lent), (0, 0));
        }
    }
}

#[test]
fn lines_dropped_doubled_and_exchanged() {
    let mut seen = Seen::default();
    for text in to_spoil() {
        let lent = fitting(text.as_bytes()).unwrap();
        let lines: Vec<&[u8]> = text.as_bytes().split_inclusive(|&b| b == b'\n').collect();
        for first in 0..lines.len() {
            let mut fewer = lines.clone();
            fewer.remove(first);
            seen.take(same(&fewer.concat(), lent));
            for second in 0..lines.len() {
                let mut exchanged = lines.clone();
                exchanged.swap(first, second);
                seen.take(same(&exchanged.concat(), lent));
                let mut more = lines.clone();
                more.insert(first, lines[second]);
                seen.take(same(&more.concat(), lent));
            }
        }
    }
    seen.often(&[0, 15], 100);
    seen.often(&[16], 4);
}

/// Bad forms of a first line, of a line and of a field: the line that is bad is named.
#[test]
fn forms_that_are_bad() {
    for text in to_spoil().iter().take(4) {
        let lent = fitting(text.as_bytes()).unwrap();
        for spoiled in bad_heads(text) {
            assert_eq!(same(spoiled.as_bytes(), lent), (15, 1));
            assert_eq!(same_in(spoiled.as_bytes(), Lent::exact([0; 3])).0.line, 1);
        }
        let fields = bad_fields(text).into_iter();
        for (spoiled, line) in fields.chain(bad_lines(text)).chain(lost_lines(text)) {
            assert_eq!(same(spoiled.as_bytes(), lent), (15, line as u64));
        }
    }
}

/// Two bad lines: the first is named, whatever makes them bad.
#[test]
fn the_first_bad_line_is_named() {
    let text = text_of(&small());
    let lent = fitting(text.as_bytes()).unwrap();
    let spoiled = |text: &str, line: usize| match line {
        4 | 6 => with_field(text, line, 1, "5"),
        2..=6 => with_field(text, line, 4, "00"),
        7..=10 => with_field(text, line, 0, "V"),
        11..=12 => with_field(text, line, 5, "-0"),
        _ => format!("{text}more"),
    };
    for second in 2..=13 {
        for first in 2..second {
            let text = spoiled(&spoiled(&text, second), first);
            assert_eq!(same(text.as_bytes(), lent), (15, first as u64));
        }
    }
}

/// Numbers at the bounds and at the ends of 8, 16, 32 and 64 bits, and those that would be the one that stands there if bits were lost.
fn limits(kept: i128) -> impl Iterator<Item = String> {
    let bounds = [0, 1, 16_128, 16_129, 250_000, 250_001, 500_000, 500_001];
    let ends = [8, 16, 31, 32, 63, 64].map(|bits| 1i128 << bits);
    let around = ends.map(|end| [end - 1, end, end + 1, end + kept]);
    let beside = [kept - 1, kept + 1, -kept, kept + (1 << 33)];
    bounds
        .into_iter()
        .chain(around.concat())
        .chain(beside)
        .map(|number| number.to_string())
}

/// Each number from line 2 on at the limits.
#[test]
fn numbers_at_the_limits() {
    let mut seen = Seen::default();
    for text in to_spoil() {
        let lent = fitting(text.as_bytes()).unwrap();
        for (line, field) in number_fields(&text) {
            for number in limits(line_of(&text, line)[field].parse().unwrap()) {
                let spoiled = with_field(&text, line, field, &number);
                seen.take(same(spoiled.as_bytes(), lent));
            }
        }
    }
    seen.often(&[0, 7, 8, 9, 15, 16], 100);
}

/// Each number of line 1 at the limits, in rooms for the mesh and in longer ones.
#[test]
fn counts_at_the_limits() {
    let mut seen = Seen::default();
    for text in to_spoil() {
        let lent = fitting(text.as_bytes()).unwrap();
        for field in 1..=3 {
            for number in limits(line_of(&text, 1)[field].parse().unwrap()) {
                let spoiled = with_field(&text, 1, field, &number);
                for lent in [lent, lent.long()] {
                    let found = same_in(spoiled.as_bytes(), lent).0;
                    seen.take((found.number, found.line));
                }
            }
        }
    }
    seen.often(&[3, 4, 5, 11, 15], 20);
}

/// The last edge number may be 2^32 - 1, the first 0.
#[test]
fn edge_numbers_that_rise_and_that_do_not() {
    for (edges, line) in [
        ([0, 1, 2, 3, u32::MAX], 0),
        ([0, 1 << 31, (1 << 31) + 1, u32::MAX - 1, u32::MAX], 0),
        ([0, 0, 2, 3, 4], 3),
        ([1, 0, 2, 3, 4], 3),
        ([9, 10, 8, 11, 12], 4),
        ([9, 10, 11, 10, 12], 5),
        ([9, 10, 11, 12, 12], 6),
        ([9, 10, 11, 12, 0], 6),
        ([100, 20, 3000, 40, 5], 3),
        ([1 << 31, (1 << 31) - 1, 1, 2, 3], 3),
        ([u32::MAX; 5], 3),
    ] {
        let surface = Surface {
            edges: edges.to_vec(),
            ..small()
        };
        let records = surface.shells().unwrap().records;
        let text = surface.write(&records).unwrap();
        let number = if line == 0 { 0 } else { 15 };
        assert_eq!(same(&text, Lent::of(&surface, &records)), (number, line));
    }
}

#[test]
fn volumes_at_the_limit_and_past_it() {
    for text in to_spoil() {
        let lent = fitting(text.as_bytes()).unwrap();
        let volumes = number_fields(&text)
            .into_iter()
            .filter(|&at| is_volume(&text, at));
        for (line, field) in volumes {
            for volume in GOOD_VOLUMES.split(' ') {
                let spoiled = with_field(&text, line, field, volume);
                assert_eq!(same(spoiled.as_bytes(), lent), (16, 0));
            }
            for volume in BAD_VOLUMES.split(' ') {
                let spoiled = with_field(&text, line, field, volume);
                assert_eq!(same(spoiled.as_bytes(), lent), (15, line as u64));
            }
        }
    }
}

/// The S lines of another mesh, too few, too many or in another order, with as many in line 1.
#[test]
fn records_that_are_not_the_mesh_s() {
    let surface = small();
    let records = surface.shells().unwrap().records;
    let [first, second] = [records[0], records[1]];
    for other in [
        vec![],
        vec![first],
        vec![second],
        vec![second, first],
        vec![first, first],
        vec![first, second, second],
        vec![first, second, Shell::default()],
        // More shells than points.
        vec![first; 9],
    ] {
        let text = surface.write(&other).unwrap();
        let lent = Lent::of(&surface, &other);
        assert_eq!(same(&text, lent), (16, 0));
        let faulty = with_field(std::str::from_utf8(&text).unwrap(), 3, 5, "2");
        assert_eq!(same(faulty.as_bytes(), lent), (9, 0));
    }
}

/// Up to three of a byte changed, dropped, doubled or cut at, two lines swapped, a number one off, in line 1 or in any line.
#[test]
fn texts_spoiled_at_random() {
    let mut seed = Seed::new(76);
    let texts = to_spoil();
    let mut seen = Seen::default();
    for round in 0..20_000 {
        let text = &texts[round % texts.len()];
        let lent = fitting(text.as_bytes()).unwrap();
        let mut spoiled = text.clone().into_bytes();
        for _ in 0..=seed.below(3) {
            if !spoiled.is_empty() {
                spoil(&mut |bound| seed.below(bound.into()) as u32, &mut spoiled);
            }
        }
        let lent = if seed.below(2) == 0 {
            lent
        } else {
            lent.long()
        };
        same_owned(&spoiled);
        if spoiled != text.as_bytes() {
            seen.take((same_in(&spoiled, lent).0.number, 0));
            seen.take(same(&spoiled, lent));
        }
    }
    seen.often(&[0, 3, 4, 5, 7, 8, 9, 11, 15, 16], 20);
}

/// The text and the rooms of the small mesh with one refusal made true, in one of three ways. The line that is bad after line 1 is 8, 4 or 13.
fn with_fault(fault: u32, way: usize, text: String, lent: &mut Lent) -> String {
    let rooms = &mut lent.rooms;
    match fault {
        0 => return with_line(&text, 1, ["M\t5\t4\t02", "M\t5\t4", "m\t5\t4\t2"][way]),
        1 => *[&mut rooms.points, &mut rooms.edges, &mut rooms.marks][way] -= 1,
        2 => rooms.triangles -= 1 + way,
        3 => lent.records = [1, 0, 1][way],
        4 => rooms.work = [43, 41, 0][way],
        5 if way == 0 => return with_field(&text, 8, 0, "t"),
        5 if way == 1 => return with_field(&text, 4, 1, "6"),
        5 => return text + "\n",
        6 => return with_field(&text, 10, 3, ["5", "2", "4294967295"][way]),
        7 => {
            return with_field(
                &text,
                2 + 2 * way,
                2 + way,
                ["16129", "65536", "20000"][way],
            )
        }
        8 => return with_field(&text, 2, 5, ["2", "256", "257"][way]),
        _ => return with_field(&text, 11, [4, 5, 11][way], ["2", "1", "0"][way]),
    }
    text
}

/// Each refusal made true or not, all 1,024 ways, each in three ways: the first that is true is answered.
#[test]
fn refusals_in_order() {
    let order = [15, 4, 5, 11, 3, 15, 7, 8, 9, 16];
    let whole = text_of(&small());
    for wrong in 0..1u32 << order.len() {
        for way in 0..3 {
            let mut lent = fitting(whole.as_bytes()).unwrap();
            let mut text = whole.clone();
            for fault in (0..order.len() as u32).filter(|fault| wrong >> fault & 1 == 1) {
                text = with_fault(fault, way, text, &mut lent);
            }
            let line = match wrong.trailing_zeros() {
                0 => 1,
                5 => [8, 4, 13][way],
                _ => 0,
            };
            let found = same_in(text.as_bytes(), lent).0;
            assert_eq!((found.number, found.line), (first_of(&order, wrong), line));
        }
    }
}

/// The counts of line 1 at the bounds and past them, with rooms that hold more. What is within them is refused at line 2, which is missing.
#[test]
fn counts_at_the_bounds() {
    let (v, t) = (MOST_POINTS, MOST_TRIANGLES);
    for (counts, refusal) in [
        ([v, 0, 0], (15, 2)),
        ([v + 1, 0, 0], (4, 0)),
        ([0, t, 0], (15, 2)),
        ([0, t + 1, 0], (5, 0)),
        ([v, t, v], (15, 2)),
        ([v + 1, t + 1, v], (4, 0)),
        ([v, t + 1, v], (5, 0)),
        ([0, 0, v + 1], (15, 2)),
    ] {
        let text = format!("M\t{}\t{}\t{}\n", counts[0], counts[1], counts[2]);
        let found = same_in(text.as_bytes(), Lent::exact(counts).long()).0;
        assert_eq!((found.number, found.line), refusal);
        same_owned(text.as_bytes());
    }
    let (most, lent) = (u32::MAX as usize, Lent::exact([4, 4, 4]));
    for (counts, number) in [
        ([most, most, most], 4),
        ([4, most, most], 5),
        ([4, 4, most], 11),
        ([0, 0, most], 11),
        ([0, 0, 4], 3),
    ] {
        let text = format!("M\t{}\t{}\t{}\n", counts[0], counts[1], counts[2]);
        assert_eq!(same_in(text.as_bytes(), lent).0.number, number);
        same_owned(text.as_bytes());
    }
}

/// 250,000 points and 500,000 triangles: tetrahedra, each twice, their triangles in a made-up order.
#[test]
fn a_mesh_at_both_bounds() {
    let mut seed = Seed::new(77);
    let sides = |low: u32| [[0, 2, 1], [0, 1, 3], [1, 2, 3], [2, 0, 3]].map(|t| t.map(|c| low + c));
    let tetrahedra = (0..MOST_POINTS as u32).step_by(4).flat_map(sides);
    let twice: Vec<[u32; 3]> = tetrahedra.flat_map(|triangle| [triangle; 2]).collect();
    let triangles = shuffled(&mut seed, twice);
    let mesh = placed(&mut seed, MOST_POINTS, triangles);
    let surface = edged(&mut seed, mesh);
    assert_eq!(surface.triangles.len(), 3 * MOST_TRIANGLES);
    let records = surface.shells().unwrap().records;
    let text = surface.write(&records).unwrap();
    let lent = Lent::of(&surface, &records);
    let (found, rooms) = same_in(&text, lent);
    assert_eq!((found.number, found.shells), (0, 62_500));
    assert!(rooms == Held::guarded(lent).filled(&surface, &records));
    let cut = Surface::read(&text[..text.len() - 1]);
    assert_eq!(
        cut,
        Err((Refusal::MeshLine, 1 + 250_000 + 500_000 + 62_500))
    );
}

/// As many shells as there may be: points by themselves.
#[test]
fn as_many_shells_as_points() {
    let mut seed = Seed::new(78);
    let mesh = placed(&mut seed, MOST_POINTS, vec![]);
    let surface = edged(&mut seed, mesh);
    let records = surface.shells().unwrap().records;
    assert_eq!(records.len(), MOST_POINTS);
    let text = surface.write(&records).unwrap();
    let lent = Lent::of(&surface, &records);
    assert_eq!(same_in(&text, lent).0.number, 0);
}

/// The greatest determinants there are, as often as triangles may come, of either sign, are read at the limit of volumes.
#[test]
fn volumes_at_the_extremes() {
    for (triple, minus) in [([0, 1, 2], ""), ([0, 2, 1], "-")] {
        let surface = Surface {
            points: vec![16_128, 16_128, 0, 0, 16_128, 16_128, 16_128, 0, 16_128],
            edges: vec![0, 1, 2],
            marks: vec![0, 1, 0],
            triangles: triple.repeat(MOST_TRIANGLES),
        };
        let records = surface.shells().unwrap().records;
        let text = surface.write(&records).unwrap();
        let end = format!("\t{minus}4195092529152000000\t0\t16128\t0\t16128\t0\t16128\n");
        assert!(text.ends_with(end.as_bytes()));
        assert_eq!(same_in(&text, Lent::of(&surface, &records)).0.number, 0);
    }
}
