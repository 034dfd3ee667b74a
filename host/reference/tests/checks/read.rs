//! Reading a mesh back: both ways, limits, refusals, rooms, and a second way to
//! the same answers.

use crate::smooth::smoothed;
use crate::text::written;
use crate::texts::{
    bad_fields, bad_heads, bad_lines, is_volume, line_of, lost_lines, number_fields, spoil, tabbed,
    with_field, with_line, BAD_VOLUMES, GOOD_VOLUMES,
};
use crate::tools::{
    extracted, faulty_meshes, guarded_records, random_grid, random_mesh, small_mesh, Grid, Mesh,
    Random,
};
use reference::read::{read_counts, read_mesh, read_text, Counts, Read, Refusal};
use reference::shells::Shell;
use reference::text::{mesh_text, run, TextMesh};
use std::collections::BTreeMap;

/// All rooms of one call.
#[derive(Clone, PartialEq, Debug)]
struct Rooms {
    points: Vec<u32>,
    edges: Vec<u32>,
    marks: Vec<u8>,
    triangles: Vec<u32>,
    records: Vec<Shell>,
    work: Vec<u32>,
}

/// The lengths of the six rooms.
#[derive(Clone, Copy, Debug)]
struct Lengths {
    points: usize,
    edges: usize,
    marks: usize,
    triangles: usize,
    records: usize,
    work: usize,
}

impl Lengths {
    fn of_rooms([points, edges, marks, triangles, records, work]: [usize; 6]) -> Lengths {
        Lengths {
            points,
            edges,
            marks,
            triangles,
            records,
            work,
        }
    }

    /// Room for so many points, triangles and shells, and no more.
    fn exact(points: usize, triangles: usize, shells: usize) -> Lengths {
        Lengths {
            points: 3 * points,
            edges: points,
            marks: points,
            triangles: 3 * triangles,
            records: shells,
            work: 6 * points + 3 * triangles,
        }
    }

    fn of(mesh: &TextMesh) -> Lengths {
        Lengths::exact(
            mesh.edges.len(),
            mesh.triangles.len() / 3,
            mesh.records.len(),
        )
    }

    /// Result rooms that have some to spare, each another number.
    fn with_spare(self) -> Lengths {
        Lengths {
            points: self.points + 7,
            edges: self.edges + 3,
            marks: self.marks + 5,
            triangles: self.triangles + 4,
            records: self.records + 2,
            work: self.work,
        }
    }
}

/// Puts a list in front of a room.
fn put<T: Copy>(room: &mut [T], list: &[T]) {
    room[..list.len()].copy_from_slice(list);
}

impl Rooms {
    /// Rooms of these lengths, full of guard values.
    fn guarded(lengths: Lengths) -> Rooms {
        let numbers = |start: u32, length: usize| (0..length as u32).map(move |i| start + i);
        Rooms {
            points: numbers(3_000_000_000, lengths.points).collect(),
            edges: numbers(2_000_000_000, lengths.edges).collect(),
            marks: (0..lengths.marks).map(|i| 100 + (i % 100) as u8).collect(),
            triangles: numbers(1_000_000_000, lengths.triangles).collect(),
            records: guarded_records(lengths.records),
            work: numbers(4_000_000_000, lengths.work).collect(),
        }
    }

    fn read(&mut self, text: &[u8]) -> Read {
        read_mesh(
            text,
            &mut self.points,
            &mut self.edges,
            &mut self.marks,
            &mut self.triangles,
            &mut self.records,
            &mut self.work,
        )
    }

    /// These rooms as a granted call leaves them.
    fn after(mut self, mesh: &TextMesh) -> Rooms {
        put(&mut self.points, &mesh.points);
        put(&mut self.edges, &mesh.edges);
        put(&mut self.marks, &mesh.marks);
        put(&mut self.triangles, &mesh.triangles);
        put(&mut self.records, &mesh.records);
        self.work.fill(0);
        self
    }

    /// These rooms as a refusal leaves them: the result rooms stay, and the
    /// work room stays up to refusal 3 and is zero after it.
    fn after_refusal(mut self, refusal: Refusal) -> Rooms {
        if ![(15, 1), (4, 0), (5, 0), (11, 0), (3, 0)].contains(&refusal) {
            self.work.fill(0);
        }
        self
    }
}

/// One call on guarded rooms answers so and leaves every room so.
fn assert_read(text: &[u8], lengths: Lengths, wanted: &Result<TextMesh, Refusal>) {
    let before = Rooms::guarded(lengths);
    let mut after = before.clone();
    let answer = after.read(text);
    let (number, line, counts) = match wanted {
        Ok(mesh) => (0, 0, Lengths::of(mesh)),
        Err((number, line)) => (*number, *line, Lengths::exact(0, 0, 0)),
    };
    let wanted_answer = Read {
        number,
        line,
        points: counts.edges as u32,
        triangles: counts.triangles as u32 / 3,
        shells: counts.records as u32,
    };
    assert_eq!(answer, wanted_answer, "{}", text.escape_ascii());
    let wanted_rooms = match wanted {
        Ok(mesh) => before.after(mesh),
        Err(refusal) => before.after_refusal(*refusal),
    };
    assert!(after == wanted_rooms, "rooms, {}", text.escape_ascii());
}

/// This mesh is written as this text, and read from it, into rooms without and
/// with spare.
fn assert_both_ways(mesh: &TextMesh, text: &str) {
    assert!(mesh_text(mesh) == text);
    let wanted = Ok(mesh.clone());
    assert!(read_text(text.as_bytes()) == wanted);
    assert_read(text.as_bytes(), Lengths::of(mesh), &wanted);
    assert_read(text.as_bytes(), Lengths::of(mesh).with_spare(), &wanted);
}

/// The text is refused so whatever the rooms spare.
fn assert_refused(text: &[u8], number: u32, line: usize) {
    let refusal = Err((number, line));
    assert_eq!(read_text(text), refusal, "{}", text.escape_ascii());
    let counts = read_counts(text).unwrap();
    let [v, t, s] = [counts.points, counts.triangles, counts.shells].map(|count| count as usize);
    assert_read(text, Lengths::exact(v, t, s), &refusal);
    assert_read(text, Lengths::exact(v, t, s).with_spare(), &refusal);
}

const WORKED: &str = "M 3 1 1
V 0 128 0 0 1
V 1 0 128 0 1
V 2 0 0 128 1
T 0 1 2
S 0 3 1 1 2097152 0 128 0 128 0 128
";

/// The mesh of [`WORKED`].
fn worked() -> TextMesh {
    TextMesh {
        points: vec![128, 0, 0, 0, 128, 0, 0, 0, 128],
        edges: vec![0, 1, 2],
        marks: vec![1, 1, 1],
        triangles: vec![0, 1, 2],
        records: vec![Shell {
            low: 0,
            points: 3,
            triangles: 1,
            touches: 1,
            volume: 2_097_152,
            least: [0; 3],
            greatest: [128; 3],
        }],
    }
}

/// A mesh that passes the checks, with these edge numbers.
fn with_edges(mesh: &Mesh, edges: &[u32]) -> TextMesh {
    let (points, marks) = (mesh.points.clone(), mesh.marks.clone());
    TextMesh::of(points, edges.to_vec(), marks, mesh.triangles.clone())
}

/// The small mesh as a text: V lines 2 to 6, T lines 7 to 10, S lines 11 and
/// 12.
fn small() -> TextMesh {
    with_edges(&small_mesh(), &[5, 6, 90, 2_147_483_648, 4_294_967_294])
}

#[test]
fn worked_example_both_ways() {
    assert_both_ways(&worked(), &tabbed(WORKED));
    let grid = b"G\t2\t2\t2\t50\t0\t0\n100\t0\n0\t0\n0\t0\n0\t0\n";
    assert_eq!(read_text(&run(grid)), Ok(worked()));
}

#[test]
fn line_1_alone_is_a_mesh_without_points() {
    assert_both_ways(&TextMesh::default(), "M\t0\t0\t0\n");
    let with_work = Lengths::of_rooms([0, 0, 0, 0, 0, 1]);
    assert_read(b"M\t0\t0\t0\n", with_work, &Err((3, 0)));
    for after in ["\n", "M\t0\t0\t0\n", "\0", "S", "\t"] {
        assert_refused(format!("M\t0\t0\t0\n{after}").as_bytes(), 15, 2);
    }
}

#[test]
fn line_1_says_the_counts() {
    for (text, counts) in [
        ("M 0 0 0\n", [0, 0, 0]),
        ("M 3 1 2\nwhatever", [3, 1, 2]),
        ("M 4294967295 0 10\n\n", [4_294_967_295, 0, 10]),
        ("M 0 4294967295 9\n\0", [0, 4_294_967_295, 9]),
        ("M 250001 500001 4294967295\n", [250_001, 500_001, u32::MAX]),
    ] {
        let [points, triangles, shells] = counts;
        let wanted = Counts {
            points,
            triangles,
            shells,
        };
        assert_eq!(read_counts(tabbed(text).as_bytes()), Some(wanted), "{text}");
    }
}

/// Line 1 is refused before the rooms, the work room and the other lines are
/// looked at.
#[test]
fn malformed_first_lines() {
    let texts = bad_heads(&tabbed(WORKED));
    assert_eq!(texts.len(), 3 + 2 * 32);
    let no_room = Lengths::of_rooms([0, 0, 0, 0, 0, 5]);
    for text in texts {
        assert_eq!(read_counts(text.as_bytes()), None, "{text:?}");
        assert_eq!(read_text(text.as_bytes()), Err((15, 1)), "{text:?}");
        assert_read(text.as_bytes(), no_room, &Err((15, 1)));
        assert_read(text.as_bytes(), Lengths::of(&worked()), &Err((15, 1)));
    }
}

/// Ten faults, each of one refusal and in the refusals' order. Of every set of
/// them the first decides.
#[test]
fn refusals_come_in_their_order() {
    let refusals = [
        (15, 1),
        (4, 0),
        (5, 0),
        (11, 0),
        (3, 0),
        (15, 8),
        (7, 0),
        (8, 0),
        (9, 0),
        (16, 0),
    ];
    for set in 1_u32..1 << refusals.len() {
        let mut text = mesh_text(&small());
        let mut lengths = Lengths::of(&small());
        for fault in (0..refusals.len()).filter(|fault| set >> fault & 1 == 1) {
            match fault {
                0 => text = with_field(&text, 1, 3, "02"),
                1 => lengths.edges -= 1,
                2 => lengths.triangles -= 1,
                3 => lengths.records -= 1,
                4 => lengths.work += 1,
                5 => text = with_field(&text, 8, 0, "t"),
                6 => text = with_field(&text, 10, 3, "5"),
                7 => text = with_field(&text, 2, 2, "16129"),
                8 => text = with_field(&text, 2, 5, "2"),
                _ => text = with_field(&text, 11, 4, "2"),
            }
        }
        let first = refusals[set.trailing_zeros() as usize];
        assert_read(text.as_bytes(), lengths, &Err(first));
    }
}

/// The small mesh has 5 points, 4 triangles and 2 shells.
#[test]
fn rooms_just_large_enough_are_taken_and_smaller_ones_refused() {
    let text = mesh_text(&small());
    for (rooms, number) in [
        ([15, 5, 5, 12, 2, 42], 0),
        ([16, 5, 5, 13, 2, 42], 0),
        ([17, 5, 5, 14, 2, 42], 0),
        ([14, 5, 5, 12, 2, 42], 4),
        ([0, 5, 5, 12, 2, 42], 4),
        ([15, 4, 5, 12, 2, 42], 4),
        ([15, 5, 4, 12, 2, 42], 4),
        ([15, 5, 5, 11, 2, 42], 5),
        ([15, 5, 5, 0, 2, 42], 5),
        ([15, 5, 5, 12, 1, 42], 11),
        ([15, 5, 5, 12, 0, 42], 11),
        ([15, 5, 5, 12, 2, 41], 3),
        ([15, 5, 5, 12, 2, 43], 3),
        ([15, 5, 5, 12, 2, 0], 3),
        ([15, 5, 5, 12, 2, 84], 3),
    ] {
        let wanted = if number == 0 {
            Ok(small())
        } else {
            Err((number, 0))
        };
        assert_read(text.as_bytes(), Lengths::of_rooms(rooms), &wanted);
    }
}

/// The counts of line 1 at the bounds and one past them, with rooms that hold
/// more. What is within them is refused at line 2, which is missing.
#[test]
fn bounds_of_points_and_triangles() {
    for (head, v, t, refusal) in [
        ("M 250000 0 0\n", 250_000, 0, (15, 2)),
        ("M 250001 0 0\n", 250_001, 0, (4, 0)),
        ("M 0 500000 0\n", 0, 500_000, (15, 2)),
        ("M 0 500001 0\n", 0, 500_001, (5, 0)),
        ("M 250000 500000 0\n", 250_000, 500_000, (15, 2)),
        ("M 250001 500001 0\n", 250_001, 500_001, (4, 0)),
    ] {
        let text = tabbed(head);
        assert_eq!(read_text(text.as_bytes()), Err(refusal));
        let lengths = Lengths::exact(v, t, 0).with_spare();
        assert_read(text.as_bytes(), lengths, &Err(refusal));
    }
    let lengths = Lengths::exact(4, 4, 4);
    for (head, number, in_text) in [
        ("M 4294967295 4294967295 4294967295\n", 4, (4, 0)),
        ("M 4 4294967295 4294967295\n", 5, (5, 0)),
        ("M 4 4 4294967295\n", 11, (15, 2)),
        ("M 0 0 4294967295\n", 11, (15, 2)),
        ("M 0 0 4\n", 3, (15, 2)),
    ] {
        let text = tabbed(head);
        assert_eq!(read_text(text.as_bytes()), Err(in_text));
        assert_read(text.as_bytes(), lengths, &Err((number, 0)));
    }
}

/// Every field of every line is a number: what is none is refused at its line.
#[test]
fn each_field_is_a_number() {
    let text = mesh_text(&small());
    for (spoiled, line) in bad_fields(&text) {
        assert_refused(spoiled.as_bytes(), 15, line);
    }
}

/// 4,294,967,295 is a number in every field; what it says is left to the checks
/// of the mesh, and to the next line if it is the edge of a point.
#[test]
fn the_largest_number_is_taken_in_every_field() {
    let text = mesh_text(&small());
    for at @ (line, field) in number_fields(&text) {
        let spoiled = with_field(&text, line, field, "4294967295");
        let letter = line_of(&text, line)[0];
        let refusal = match (letter, field) {
            ("V", 1) if line == 6 => continue,
            ("V", 1) => (15, line + 1),
            ("V", 5) => (9, 0),
            ("V", _) => (8, 0),
            ("T", _) => (7, 0),
            _ => (16, 0),
        };
        assert_refused(spoiled.as_bytes(), refusal.0, refusal.1);
        let past = with_field(&text, line, field, "4294967296");
        let number = if is_volume(&text, at) {
            (16, 0)
        } else {
            (15, line)
        };
        assert_refused(past.as_bytes(), number.0, number.1);
    }
    let mesh = with_edges(&small_mesh(), &[0, 1, 2, 4_294_967_294, 4_294_967_295]);
    assert_both_ways(&mesh, &mesh_text(&mesh));
}

/// Each line starts with the letter that is due, and has its fields and no
/// more.
#[test]
fn each_line_has_its_letter_and_its_fields() {
    for (spoiled, line) in bad_lines(&mesh_text(&small())) {
        assert_refused(spoiled.as_bytes(), 15, line);
    }
}

/// Each line cut before its LF, each line missing, and bytes after the last.
#[test]
fn missing_lines_and_bytes_after_the_last() {
    for (spoiled, line) in lost_lines(&mesh_text(&small())) {
        assert_refused(spoiled.as_bytes(), 15, line);
    }
}

/// The counts of line 1 decide which letter is due where: with one more or one
/// less of a letter the first line that is not due is bad.
#[test]
fn counts_that_the_lines_do_not_have() {
    let text = mesh_text(&small());
    for (head, number, line) in [
        ("M 6 4 2", 15, 7),
        ("M 4 4 2", 15, 6),
        ("M 5 5 2", 15, 11),
        ("M 5 3 2", 15, 10),
        ("M 5 4 3", 15, 13),
        ("M 5 4 1", 15, 12),
        ("M 0 4 2", 15, 2),
        ("M 0 0 0", 15, 2),
    ] {
        let spoiled = with_line(&text, 1, &tabbed(head));
        assert_refused(spoiled.as_bytes(), number, line);
    }
}

/// "edge numbers are below 2^32 and rise strictly"
#[test]
fn edge_numbers_rise() {
    for (edges, wanted) in [
        ([0, 1, 2, 3, 4], None),
        ([0, 1, 1 << 31, u32::MAX - 1, u32::MAX], None),
        ([0, 0, 2, 3, 4], Some(3)),
        ([1, 0, 2, 3, 4], Some(3)),
        ([9, 10, 10, 10, 9], Some(4)),
        ([9, 10, 8, 11, 12], Some(4)),
        ([9, 10, 11, 12, 12], Some(6)),
        ([9, 10, 11, 12, 11], Some(6)),
        ([9, 10, 11, 12, 0], Some(6)),
        ([100, 20, 3000, 40, 5], Some(3)),
        ([2_147_483_648, 2_147_483_647, 1, 2, 3], Some(3)),
        ([u32::MAX; 5], Some(3)),
    ] {
        let mesh = with_edges(&small_mesh(), &edges);
        let text = mesh_text(&mesh);
        match wanted {
            None => assert_both_ways(&mesh, &text),
            Some(line) => assert_refused(text.as_bytes(), 15, line),
        }
    }
}

/// Of any two bad lines the first is named, whatever makes them bad.
#[test]
fn the_first_bad_line_is_named() {
    let text = mesh_text(&small());
    let spoiled = |text: &str, line: usize| match line {
        4 | 6 => with_field(text, line, 1, "5"),
        2..=6 => with_field(text, line, 4, "00"),
        7..=10 => with_field(text, line, 0, "V"),
        11..=12 => with_field(text, line, 5, "-0"),
        _ => String::from(text) + "more",
    };
    for second in 2..=13 {
        for first in 2..second {
            let text = spoiled(&spoiled(&text, second), first);
            assert_refused(text.as_bytes(), 15, first);
        }
    }
}

/// "a volume above 1,000,000·16,128³ in size" is bad form; a volume that is
/// well formed and not the shell's is refused with 16.
#[test]
fn volumes_have_their_form() {
    let text = mesh_text(&small());
    for line in [11, 12] {
        for volume in GOOD_VOLUMES.split(' ') {
            assert_refused(with_field(&text, line, 5, volume).as_bytes(), 16, 0);
        }
        for volume in BAD_VOLUMES.split(' ') {
            assert_refused(with_field(&text, line, 5, volume).as_bytes(), 15, line);
        }
    }
}

/// 500,000 triangles whose volumes add up to the limit, with either sign.
#[test]
fn the_largest_volume_both_ways() {
    let m = 16_128;
    for (corners, sign) in [([0, 1, 2], 1), ([0, 2, 1], -1)] {
        let mesh = TextMesh {
            points: vec![m, m, 0, 0, m, m, m, 0, m],
            edges: vec![0, 1, 2],
            marks: vec![0; 3],
            triangles: corners.repeat(500_000),
            records: vec![Shell {
                points: 3,
                triangles: 500_000,
                volume: sign * 4_195_092_529_152_000_000,
                greatest: [m; 3],
                ..Shell::default()
            }],
        };
        let text = mesh_text(&mesh);
        assert!(text.ends_with("4195092529152000000\t0\t16128\t0\t16128\t0\t16128\n"));
        assert_read(text.as_bytes(), Lengths::of(&mesh), &Ok(mesh));
    }
}

/// 250,000 points, up to edge 2^32 - 1, most of them in a strip of triangles.
#[test]
fn the_most_points_both_ways() {
    let points = (0..750_000).map(|i| i % 16_129).collect();
    let edges = (0..250_000).map(|i| u32::MAX - 17_000 * (249_999 - i));
    let marks = (0..250_000).map(|i| (i % 2) as u8).collect();
    let strip = (0..124_999).flat_map(|i| [2 * i + 1, 2 * i, 2 * i + 2]);
    let mesh = TextMesh::of(points, edges.collect(), marks, strip.collect());
    let text = mesh_text(&mesh);
    assert!(text.starts_with("M\t250000\t124999\t2\n"));
    assert_read(text.as_bytes(), Lengths::of(&mesh), &Ok(mesh));
}

/// A triangle names a point at V or one point twice; a coordinate is over
/// 16,128; a mark is over 1, also where its lowest byte is not.
#[test]
fn meshes_that_fail_a_check() {
    let text = mesh_text(&small());
    for line in 7..=10 {
        for field in 1..=3 {
            let other = line_of(&text, line)[field % 3 + 1].to_string();
            for point in ["5", "6", "250000", &other] {
                let spoiled = with_field(&text, line, field, point);
                assert_refused(spoiled.as_bytes(), 7, 0);
            }
        }
    }
    for line in 2..=6 {
        for field in 2..=4 {
            let spoiled = with_field(&text, line, field, "16129");
            assert_refused(spoiled.as_bytes(), 8, 0);
        }
        for mark in ["2", "255", "256", "257", "300", "65536", "65537"] {
            let spoiled = with_field(&text, line, 5, mark);
            assert_refused(spoiled.as_bytes(), 9, 0);
        }
    }
    for at in 0..15 {
        let mut mesh = small_mesh();
        mesh.points[at] = 16_128;
        mesh.marks[at / 3] ^= 1;
        let mesh = with_edges(&mesh, &[1, 2, 3, 4, 5]);
        assert_both_ways(&mesh, &mesh_text(&mesh));
    }
}

/// The faulty meshes of refusals 7, 8 and 9 as texts, with whatever S lines.
#[test]
fn faulty_meshes_are_refused_before_their_shells() {
    let mut seen = Vec::new();
    for (number, mesh) in faulty_meshes() {
        if number == 6 {
            continue;
        }
        seen.push(number);
        for shells in [0, 1, 2, 9] {
            let text = mesh_text(&TextMesh {
                points: mesh.points.clone(),
                edges: (0..5).collect(),
                marks: mesh.marks.clone(),
                triangles: mesh.triangles.clone(),
                records: vec![Shell::default(); shells],
            });
            assert_refused(text.as_bytes(), number, 0);
        }
    }
    assert_eq!(seen, [9, 8, 7, 7]);
}

/// "16 for S lines [..] that differ": each field of a record a little more and
/// one less, and a volume with the other sign.
#[test]
fn each_field_of_a_record_is_the_meshs_own() {
    let mesh = small();
    let text = mesh_text(&mesh);
    for (line, field) in number_fields(&text) {
        if line < 11 {
            continue;
        }
        let number: i64 = line_of(&text, line)[field].parse().unwrap();
        for other in [number - 1, number + 1, number + 2] {
            if other >= 0 {
                let spoiled = with_field(&text, line, field, &other.to_string());
                assert_refused(spoiled.as_bytes(), 16, 0);
            }
        }
    }
    let volume = mesh.records[0].volume;
    assert!(volume != 0);
    let turned = with_field(&text, 11, 5, &(-volume).to_string());
    assert_refused(turned.as_bytes(), 16, 0);
}

/// "or a shell count that differ[s]": records too few, too many or swapped.
#[test]
fn the_records_are_the_meshs_own() {
    let mesh = small();
    let [first, second] = [mesh.records[0], mesh.records[1]];
    for records in [
        vec![],
        vec![first],
        vec![second],
        vec![second, first],
        vec![first, first],
        vec![first, second, second],
        vec![first, second, Shell::default()],
        // More shells than points.
        vec![first, second, first, second, first, second],
    ] {
        let other = TextMesh {
            records,
            ..mesh.clone()
        };
        assert_refused(mesh_text(&other).as_bytes(), 16, 0);
    }
    let only_shells = TextMesh {
        records: vec![second],
        ..TextMesh::default()
    };
    assert_refused(mesh_text(&only_shells).as_bytes(), 16, 0);
}

/// Rising edge numbers for a mesh, a random step apart.
fn rising(random: &mut Random, count: usize) -> Vec<u32> {
    let mut edge = random.below(3);
    let mut edges = Vec::new();
    for _ in 0..count {
        edges.push(edge);
        edge += 1 + random.below(1000);
    }
    edges
}

#[test]
fn meshes_of_the_other_calls_both_ways() {
    let mut random = Random::new(61);
    let mut meshes = vec![small()];
    for _ in 0..60 {
        let v = 3 + random.below(40);
        let t = random.below(v);
        let mesh = random_mesh(&mut random, v, t, 16_128);
        meshes.push(with_edges(&mesh, &rising(&mut random, v as usize)));
    }
    for _ in 0..40 {
        let (mut mesh, edges) = extracted(&random_grid(&mut random));
        meshes.push(with_edges(&mesh, &edges));
        mesh.points = smoothed(&mesh, 1 + random.below(4), random.below(257));
        meshes.push(with_edges(&mesh, &edges));
    }
    for mesh in meshes {
        assert_both_ways(&mesh, &mesh_text(&mesh));
    }
}

/// What the program prints is read, and written again as it was printed.
#[test]
fn what_the_program_prints_is_read() {
    let mut random = Random::new(62);
    let mut grids = vec![Grid::centre(), Grid::filled([3, 3, 3], 50, 99)];
    grids[1].set([1, 1, 1], 0);
    while grids.len() < 60 {
        let grid = random_grid(&mut random);
        if grid.samples.len() <= 512 {
            grids.push(grid);
        }
    }
    let mut negative = 0;
    for grid in grids {
        let (rounds, weight) = (random.below(4), random.below(257));
        let text = String::from_utf8(run(written(&grid, rounds, weight).as_bytes())).unwrap();
        let mesh = read_text(text.as_bytes()).unwrap();
        let (raw, edges) = extracted(&grid);
        assert_eq!(mesh.points, smoothed(&raw, rounds, weight));
        assert_eq!((&mesh.edges, &mesh.marks), (&edges, &raw.marks));
        assert_eq!(mesh.triangles, raw.triangles);
        negative += mesh.records.iter().filter(|r| r.volume < 0).count();
        assert_both_ways(&mesh, &text);
    }
    assert!(negative > 10);
}

/// The numbers of a line, if it is what its numbers are written as: a second
/// way to tell good form from bad.
fn second_line(line: Option<&&[u8]>, letter: char, count: usize) -> Option<Vec<i128>> {
    let line = std::str::from_utf8(line?).ok()?;
    let numbers: Vec<i128> = line
        .trim_end_matches('\n')
        .split('\t')
        .skip(1)
        .map(|field| field.parse().ok())
        .collect::<Option<_>>()?;
    let again: String = numbers.iter().map(|number| format!("\t{number}")).collect();
    let fits = |(at, number): (usize, &i128)| match (letter, at) {
        ('S', 4) => number.abs() <= 4_195_092_529_152_000_000,
        _ => (0..1 << 32).contains(number),
    };
    let good = numbers.len() == count
        && line == format!("{letter}{again}\n")
        && numbers.iter().enumerate().all(fits);
    good.then_some(numbers)
}

/// The lines of a text from line 2 on, by their letters: V, T, S.
fn second_lines(pieces: &[&[u8]], counts: &[i128]) -> Result<[Vec<Vec<i128>>; 3], Refusal> {
    let mut lists = [vec![], vec![], vec![]];
    let mut line = 1;
    for (list, (letter, fields)) in [('V', 5), ('T', 3), ('S', 11)].into_iter().enumerate() {
        for _ in 0..counts[list] {
            line += 1;
            let numbers = second_line(pieces.get(line - 1), letter, fields).ok_or((15, line))?;
            let before: Option<&Vec<i128>> = lists[list].last();
            if letter == 'V' && before.is_some_and(|before| before[0] >= numbers[0]) {
                return Err((15, line));
            }
            lists[list].push(numbers);
        }
    }
    if pieces.len() > line {
        return Err((15, line + 1));
    }
    Ok(lists)
}

/// Refusals 4, 5, 11 and 3 of these rooms.
fn second_rooms(counts: &[i128], lengths: Lengths) -> Result<(), Refusal> {
    let [points, edges, marks, triangles, records, work] = [
        lengths.points / 3,
        lengths.edges,
        lengths.marks,
        lengths.triangles / 3,
        lengths.records,
        lengths.work,
    ]
    .map(|length| length as i128);
    let refusals = [
        (
            4,
            [250_000, points, edges, marks]
                .iter()
                .any(|&most| counts[0] > most),
        ),
        (5, counts[1] > 500_000 || counts[1] > triangles),
        (11, counts[2] > records),
        (3, work != 6 * counts[0] + 3 * counts[1]),
    ];
    match refusals.into_iter().find(|&(_, holds)| holds) {
        Some((number, _)) => Err((number, 0)),
        None => Ok(()),
    }
}

/// Refusals 7, 8 and 9 of the lines of points and triangles.
fn second_checks(points: &[Vec<i128>], triangles: &[Vec<i128>]) -> Result<(), Refusal> {
    let distinct = |t: &[i128]| t[0] != t[1] && t[1] != t[2] && t[2] != t[0];
    let named = |t: &[i128]| t.iter().all(|&p| p < points.len() as i128);
    if !triangles.iter().all(|t| named(t) && distinct(t)) {
        return Err((7, 0));
    }
    if !points.iter().all(|p| p[1..4].iter().all(|&c| c <= 16_128)) {
        return Err((8, 0));
    }
    if !points.iter().all(|p| p[4] <= 1) {
        return Err((9, 0));
    }
    Ok(())
}

/// A second way to what a call answers: "It takes exactly what our writer
/// writes for some mesh that passes 7 to 9".
fn second(text: &[u8], lengths: Lengths) -> Result<TextMesh, Refusal> {
    let pieces: Vec<&[u8]> = text.split_inclusive(|&byte| byte == b'\n').collect();
    let counts = second_line(pieces.first(), 'M', 3).ok_or((15, 1))?;
    second_rooms(&counts, lengths)?;
    let [points, triangles, _] = second_lines(&pieces, &counts)?;
    second_checks(&points, &triangles)?;
    let column = |at: usize| points.iter().map(move |point| point[at]);
    let mesh = TextMesh::of(
        points
            .iter()
            .flat_map(|p| &p[1..4])
            .map(|&c| c as u32)
            .collect(),
        column(0).map(|edge| edge as u32).collect(),
        column(4).map(|mark| mark as u8).collect(),
        triangles.concat().iter().map(|&p| p as u32).collect(),
    );
    if mesh_text(&mesh).as_bytes() == text {
        Ok(mesh)
    } else {
        Err((16, 0))
    }
}

/// Texts to spoil: with coordinates and marks at their limits, with open and
/// closed shells, with volumes of either sign and of none.
fn texts_to_spoil(random: &mut Random) -> Vec<TextMesh> {
    let mut meshes = vec![worked(), small()];
    let mut far = small_mesh();
    far.points[3..9].fill(16_128);
    far.points[12..].fill(16_128);
    meshes.push(with_edges(&far, &[0, 1, 3, 4, 6]));
    far.triangles.reverse();
    meshes.push(with_edges(&far, &[7, 8, 9, 10, 11]));
    let (mesh, edges) = extracted(&Grid::centre());
    meshes.push(with_edges(&mesh, &edges));
    for _ in 0..5 {
        let mesh = random_mesh(random, 6, 4, 16_128);
        meshes.push(with_edges(&mesh, &rising(random, 6)));
    }
    meshes
}

/// The text is answered as the second way answers it, into these rooms and into
/// rooms that suffice, and if it is granted it is written as the same bytes.
/// Returns the number for these rooms.
fn assert_as_second(text: &[u8], lengths: Lengths) -> u32 {
    let wanted = second(text, lengths);
    assert_read(text, lengths, &wanted);
    let read = read_text(text);
    let sufficing = read_counts(text).map(|counts| {
        let [v, t, s] =
            [counts.points, counts.triangles, counts.shells].map(|count| count as usize);
        second(text, Lengths::exact(v, t, s))
    });
    assert_eq!(
        read,
        sufficing.unwrap_or(Err((15, 1))),
        "{}",
        text.escape_ascii()
    );
    if let Ok(mesh) = read {
        assert!(mesh_text(&mesh).as_bytes() == text);
    }
    wanted.map_or_else(|(number, _)| number, |_| 0)
}

/// The rooms are those of the text before it was spoiled.
#[test]
fn spoiled_texts_are_taken_only_if_they_are_some_meshs_own() {
    let mut random = Random::new(63);
    let meshes = texts_to_spoil(&mut random);
    let mut seen: BTreeMap<u32, u32> = BTreeMap::new();
    for round in 0..6_000 {
        let mesh = &meshes[round % meshes.len()];
        let mut text = mesh_text(mesh).into_bytes();
        spoil(&mut |bound| random.below(bound), &mut text);
        if random.below(2) == 0 && !text.is_empty() {
            spoil(&mut |bound| random.below(bound), &mut text);
        }
        let lengths = match random.below(2) {
            0 => Lengths::of(mesh),
            _ => Lengths::of(mesh).with_spare(),
        };
        let number = assert_as_second(&text, lengths);
        if text != mesh_text(mesh).as_bytes() {
            *seen.entry(number).or_default() += 1;
        }
    }
    for number in [0, 3, 4, 5, 7, 8, 9, 11, 15, 16] {
        let times = seen.get(&number).copied().unwrap_or(0);
        assert!(times > 20, "{number} in {seen:?}");
    }
}
