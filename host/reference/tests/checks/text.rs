//! The program for small grids.

use crate::tools::{extracted, random_grid, Grid, Random};
use reference::shells::{shells, Shell};
use reference::smooth::smooth;
use reference::text::run;

/// Runs on text whose tabs are written as spaces.
fn run_spaced(input: &str) -> String {
    run_text(&input.replace(' ', "\t"))
}

fn run_text(input: &str) -> String {
    String::from_utf8(run(input.as_bytes())).unwrap()
}

const WORKED: &str = "G 2 2 2 50 0 0\n100 0\n0 0\n0 0\n0 0\n";

#[test]
fn worked_example() {
    let wanted = "M 3 1 1\nV 0 128 0 0 1\nV 1 0 128 0 1\nV 2 0 0 128 1\nT 0 1 2\nS 0 3 1 1 2097152 0 128 0 128 0 128\n";
    assert_eq!(run_spaced(WORKED), wanted.replace(' ', "\t"));
}

#[test]
fn centre_example_with_one_round() {
    let mut input = String::from("G 3 3 3 50 1 256\n");
    for row in 0..9 {
        input += if row == 4 { "0 100 0\n" } else { "0 0 0\n" };
    }
    let output = run_spaced(&input);
    let lines: Vec<&str> = output.lines().collect();
    assert_eq!(lines[0], "M\t6\t8\t1");
    for (line, edge) in lines[1..7].iter().zip([14, 31, 36, 39, 40, 41]) {
        assert_eq!(*line, format!("V\t{edge}\t256\t256\t256\t0"));
    }
    assert_eq!(lines[7], "T\t2\t0\t1");
    assert_eq!(lines[15], "S\t0\t6\t8\t0\t0\t256\t256\t256\t256\t256\t256");
    assert_eq!(lines.len(), 16);
}

/// The points stand 129 units from the centre, at 256 - 129 and 256 + 129, so
/// the sixfold volume is 8 * 129^3.
#[test]
fn a_negative_volume_has_a_minus_sign() {
    let mut input = String::from("G 3 3 3 50 0 0\n");
    for row in 0..9 {
        input += if row == 4 { "99 0 99\n" } else { "99 99 99\n" };
    }
    let output = run_spaced(&input);
    let last = output.lines().last().unwrap();
    assert_eq!(
        last,
        "S\t0\t6\t8\t0\t-17173512\t127\t385\t127\t385\t127\t385"
    );
}

/// Six different numbers: one sample is above, at (3,0,2), and each of its five
/// neighbours differs. The points stand at x 512 + 256·40/80 and
/// 768 + 256·40/64, y 256·40/48, z 256 + 256·10/50 and 512 + 256·40/100.
#[test]
fn the_pairs_come_in_the_order_x_y_z() {
    let mut grid = Grid::filled([5, 3, 4], 60, 0);
    grid.set([3, 0, 2], 100);
    for (place, below) in [
        ([2, 0, 2], 20),
        ([4, 0, 2], 36),
        ([3, 1, 2], 52),
        ([3, 0, 1], 50),
        ([3, 0, 3], 0),
    ] {
        grid.set(place, below);
    }
    let output = run_text(&written(&grid, 0, 0));
    let last = lines_of(&output, "S").pop().unwrap();
    assert_eq!(last[..4], [0, 5, 4, 1]);
    assert_eq!(last[5..], [640, 928, 0, 213, 307, 614]);
}

#[test]
fn an_empty_mesh_prints_one_line() {
    let input = WORKED.replacen("50", "0", 1);
    assert_eq!(run_spaced(&input), "M\t0\t0\t0\n");
}

#[test]
fn checks_come_in_their_order() {
    for (input, wanted) in [
        ("", "R 12 1\n"),
        ("\n", "R 12 1\n"),
        ("G 2 2 2 50 0 0", "R 12 1\n"),
        ("G 1 2 2 50 101 0", "R 12 1\n"),
        ("G 1 2 2 50 101 257 \n", "R 12 1\n"),
        ("G 1 64 64 50 101 257\n", "R 1 0\n"),
        ("G 2 65 64 50 101 257\n", "R 1 0\n"),
        ("G 2 2 0 50 101 257\n", "R 1 0\n"),
        ("G 65535 65535 65535 50 0 0\n", "R 1 0\n"),
        ("G 65536 2 2 50 0 0\n", "R 12 1\n"),
        ("G 64 64 64 50 101 257\n", "R 13 0\n"),
        ("G 3 19 9 50 101 257\n", "R 13 0\n"),
        ("G 8 8 9 50 0 0\n", "R 13 0\n"),
        ("G 8 8 8 50 101 0\n", "R 10 0\n"),
        ("G 8 8 8 50 0 257\n", "R 10 0\n"),
        ("G 8 8 8 50 100 256\n", "R 12 2\n"),
        ("G 2 2 2 50 100 256\n", "R 12 2\n"),
        ("G 2 2 2 50 0 0\n1 2\n3\n", "R 12 3\n"),
    ] {
        assert_eq!(run_spaced(input), wanted.replace(' ', "\t"), "{input:?}");
    }
}

#[test]
fn limits_of_rounds_and_weight() {
    for (rounds, weight, taken) in [
        (100, 256, true),
        (101, 256, false),
        (100, 257, false),
        (0, 0, true),
    ] {
        let head = format!("G 2 2 2 50 {rounds} {weight}\n");
        let output = run_spaced(&WORKED.replacen("G 2 2 2 50 0 0\n", &head, 1));
        assert_eq!(output.starts_with("M\t3\t1\t1\n"), taken);
        assert_eq!(output == "R\t10\t0\n", !taken);
    }
}

#[test]
fn samples_up_to_512_are_taken() {
    for (sides, taken) in [([8, 8, 8], true), ([64, 4, 2], true), ([57, 3, 3], false)] {
        let [nx, ny, nz] = sides;
        let mut input = format!("G {nx} {ny} {nz} 1 0 0\n");
        for _ in 0..ny * nz {
            input += &vec!["0"; nx].join(" ");
            input += "\n";
        }
        let wanted = if taken { "M\t0\t0\t0\n" } else { "R\t13\t0\n" };
        assert_eq!(run_spaced(&input), wanted);
    }
}

/// Each line cut, each line doubled, and bytes after the last.
#[test]
fn missing_lines_and_bytes_after_the_last() {
    let input = WORKED.replace(' ', "\t");
    let lines: Vec<&str> = input.split_inclusive('\n').collect();
    for count in 0..lines.len() {
        let short = lines[..count].concat();
        let wanted = format!("R\t12\t{}\n", count + 1);
        assert_eq!(run_text(&short), wanted);
        let cut = lines[..=count].concat();
        assert_eq!(run_text(cut.strip_suffix('\n').unwrap()), wanted);
    }
    for tail in ["\n", "0\t0\n", "0", "\t", "\0", " \n", "\r"] {
        assert_eq!(run_text(&(input.clone() + tail)), "R\t12\t6\n");
    }
}

#[test]
fn malformed_first_lines() {
    for head in [
        "g 2 2 2 50 0 0",
        "GG 2 2 2 50 0 0",
        " G 2 2 2 50 0 0",
        "G  2 2 2 50 0 0",
        "G 2 2 2 50 0 0 ",
        "G 2 2 2 50 0",
        "G 2 2 2 50 0 0 0",
        "G 02 2 2 50 0 0",
        "G 2 2 2 050 0 0",
        "G 2 2 2 50 00 0",
        "G +2 2 2 50 0 0",
        "G -2 2 2 50 0 0",
        "G 2 2 2 65536 0 0",
        "G 2 2 2 50 0 65536",
        "G 2 2 2 50 0 4294967296",
        "G 2 2 2 50 0 18446744073709551616",
        "G 2 2 2 0x32 0 0",
        "G 2 2 2 5e1 0 0",
        "G 2 2 2 50 0 0\r",
        "\u{feff}G 2 2 2 50 0 0",
        "G",
        "2 2 2 50 0 0",
        "G 2 2 2 50 0 \u{0663}",
    ] {
        let input = WORKED.replacen("G 2 2 2 50 0 0", head, 1);
        assert_eq!(run_spaced(&input), "R\t12\t1\n", "{head:?}");
    }
    assert_eq!(run_text(WORKED), "R\t12\t1\n");
}

#[test]
fn malformed_rows() {
    for (at, row) in [
        (2, "100"),
        (3, "0 0 0"),
        (4, "0  0"),
        (5, "0 0 "),
        (2, " 0 0"),
        (3, "00 0"),
        (4, "0 01"),
        (5, "0 65536"),
        (2, "0 -1"),
        (3, "0 1.0"),
        (4, ""),
        (5, "0 0\r"),
        (2, "0,0"),
        (3, "0\u{b}0"),
        (4, "0 99999999999999999999"),
    ] {
        let mut lines: Vec<&str> = WORKED.lines().collect();
        lines[at - 1] = row;
        let input = lines.join("\n") + "\n";
        assert_eq!(run_spaced(&input), format!("R\t12\t{at}\n"), "{row:?}");
    }
    let two_faults = "G 2 2 2 50 0 0\n1 1\nx 1\n1 1\n1 x\nmore";
    assert_eq!(run_spaced(two_faults), "R\t12\t3\n");
    let spaced_row = WORKED.replace(' ', "\t").replacen("100\t0", "100 0", 1);
    assert_eq!(run_text(&spaced_row), "R\t12\t2\n");
}

#[test]
fn the_largest_number_is_taken() {
    let input = WORKED
        .replacen("50", "65535", 1)
        .replacen("100", "65535", 1);
    let output = run_spaced(&input);
    assert!(output.starts_with("M\t3\t1\t1\nV\t0\t0\t0\t0\t1\n"));
}

/// The input of a grid.
pub fn written(grid: &Grid, rounds: u32, weight: u32) -> String {
    let [nx, ny, nz] = grid.sides;
    let mut input = format!("G\t{nx}\t{ny}\t{nz}\t{}\t{rounds}\t{weight}\n", grid.grey);
    for row in grid.samples.chunks(nx as usize) {
        let row: Vec<String> = row.iter().map(u16::to_string).collect();
        input += &row.join("\t");
        input += "\n";
    }
    input
}

/// The numbers of all lines of the output that start with `letter`.
fn lines_of(output: &str, letter: &str) -> Vec<Vec<i64>> {
    output
        .lines()
        .filter_map(|line| line.strip_prefix(letter))
        .map(|rest| {
            rest.split('\t')
                .skip(1)
                .map(|field| field.parse().unwrap())
                .collect()
        })
        .collect()
}

#[test]
fn the_output_is_what_the_calls_give() {
    let mut random = Random::new(51);
    let mut seen = 0;
    while seen < 60 {
        let grid = random_grid(&mut random);
        if grid.samples.len() > 512 {
            continue;
        }
        seen += 1;
        let (rounds, weight) = (random.below(4), random.below(257));
        let output = run_text(&written(&grid, rounds, weight));

        let (mesh, edges) = extracted(&grid);
        let (v, t) = (mesh.marks.len(), mesh.triangle_count());
        let mut places = vec![0; 3 * v];
        let number = smooth(
            &mesh.points,
            &mesh.triangles,
            &mesh.marks,
            rounds,
            weight,
            &mut places,
            &mut vec![0; 6 * t + 5 * v + 1],
        );
        assert_eq!(number, 0);
        let mut records = vec![Shell::default(); v];
        let listed = shells(
            &places,
            &mesh.triangles,
            &mesh.marks,
            &mut vec![0; v],
            &mut records,
            &mut vec![0; 2 * v],
        );
        let shell_count = listed.shells as usize;

        let heads = [v, t, shell_count].map(|count| count as i64);
        assert_eq!(lines_of(&output, "M"), [heads]);
        let points = lines_of(&output, "V");
        assert_eq!(points.len(), v);
        for (i, line) in points.iter().enumerate() {
            let mut wanted = vec![i64::from(edges[i])];
            wanted.extend(places[3 * i..3 * i + 3].iter().map(|&c| i64::from(c)));
            wanted.push(i64::from(mesh.marks[i]));
            assert_eq!(*line, wanted);
        }
        let triangles: Vec<i64> = mesh.triangles.iter().map(|&p| i64::from(p)).collect();
        assert_eq!(lines_of(&output, "T").concat(), triangles);
        let shell_lines = lines_of(&output, "S");
        assert_eq!(shell_lines.len(), shell_count);
        for (line, shell) in shell_lines.iter().zip(&records) {
            let [low, points, triangles, touches] =
                [shell.low, shell.points, shell.triangles, shell.touches].map(i64::from);
            let mut wanted = vec![low, points, triangles, touches, shell.volume];
            for axis in 0..3 {
                wanted.extend([shell.least[axis], shell.greatest[axis]].map(i64::from));
            }
            assert_eq!(*line, wanted);
        }
        let letters: String = output
            .lines()
            .filter_map(|line| line.chars().next())
            .collect();
        let wanted = String::from("M") + &"V".repeat(v) + &"T".repeat(t) + &"S".repeat(shell_count);
        assert_eq!(letters, wanted);
        assert!(output.ends_with('\n'));
    }
}

/// Random damage: what is taken is written as the document says, byte for
/// byte, and what is refused is refused in one line.
#[test]
fn damaged_input_is_taken_only_if_it_is_well_formed() {
    let mut random = Random::new(52);
    let (mut taken, mut refused) = (0, 0);
    for _ in 0..20_000 {
        let mut input = WORKED.replace(' ', "\t").into_bytes();
        for _ in 0..=random.below(2) {
            let at = random.below(input.len() as u32) as usize;
            let byte = b"0123456789\t\n -+G\r\0\xff"[random.below(19) as usize];
            match random.below(3) {
                0 => input[at] = byte,
                1 => input.insert(at, byte),
                _ => drop(input.remove(at)),
            }
        }
        let output = String::from_utf8(run(&input)).unwrap();
        if output.starts_with('R') {
            refused += 1;
            let fields: Vec<&str> = output.strip_suffix('\n').unwrap().split('\t').collect();
            assert_eq!(fields.len(), 3);
            assert!(["1", "10", "12", "13"].contains(&fields[1]));
            assert_eq!(fields[1] == "12", fields[2] != "0");
            continue;
        }
        taken += 1;
        let text = String::from_utf8(input).unwrap();
        let mut numbers: Vec<u32> = Vec::new();
        for field in text.split_whitespace().skip(1) {
            numbers.push(field.parse().unwrap());
        }
        let samples: Vec<u16> = numbers[6..].iter().map(|&n| n as u16).collect();
        let grid = Grid {
            sides: [numbers[0], numbers[1], numbers[2]],
            grey: numbers[3] as u16,
            samples,
        };
        assert_eq!(grid.samples.len(), 8);
        assert!(numbers.iter().all(|&n| n <= 65_535));
        assert_eq!(written(&grid, numbers[4], numbers[5]), text);
    }
    assert!(taken > 500 && refused > 500);
}
