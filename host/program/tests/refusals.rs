//! Each refusal, at each line, and which comes first.

use program::{refused_all, same, Grid};

/// A text from its lines.
fn text(lines: &[impl AsRef<str>]) -> Vec<u8> {
    lines
        .iter()
        .flat_map(|line| [line.as_ref(), "\n"])
        .collect::<String>()
        .into_bytes()
}

/// The lines of a grid of 3 by 2 by 3 samples.
fn lines() -> Vec<String> {
    let grid = Grid::raw([3, 2, 3], 50, |[x, y, z]| (31 * x + 17 * y + 23 * z) as u16);
    let text = String::from_utf8(grid.text()).expect("plain text");
    text.lines().map(str::to_string).collect()
}

/// Ways to spoil a line of which each field but the last ends in a tab.
fn spoiled(line: &str) -> Vec<String> {
    let tab = line.find('\t').expect("a line has several fields");
    let last = line.rfind('\t').expect("a line has several fields");
    vec![
        String::new(),
        line[..last].to_string(),
        format!("{line}\t7"),
        format!("{line}\t"),
        format!("\t{line}"),
        format!(" {line}"),
        format!("{line} "),
        format!("{line}\r"),
        format!("{line}\0"),
        line.replacen('\t', "\t\t", 1),
        line.replacen('\t', " ", 1),
        line.replacen('\t', "\t0", 1).replacen("\t00", "\t007", 1),
        line.replacen('\t', "\t+", 1),
        line.replacen('\t', "\t-", 1),
        line.replacen('\t', "\n", 1),
        format!("{}\t65536", &line[..last]),
        format!("{}\t4294967296", &line[..last]),
        format!("{}\t18446744073709551617", &line[..last]),
        format!("{}\t{}", &line[..last], "1".repeat(30)),
        format!("{}\t{}", &line[..last], "0".repeat(30)),
        format!("{}\tx", &line[..tab]),
        format!("{}\t/", &line[..last]),
        format!("{}\t1:", &line[..last]),
        format!("{}\t1.0{}", &line[..tab], &line[last..]),
    ]
}

#[test]
fn the_grid_that_is_spoiled_is_granted() {
    assert!(same(&text(&lines())).starts_with(b"M\t"));
}

#[test]
fn every_line_malformed_in_every_way() {
    let whole = lines();
    assert_eq!(whole.len(), 7);
    let mut cases = Vec::new();
    for (at, line) in whole.iter().enumerate() {
        for worse in spoiled(line) {
            let mut changed = whole.clone();
            changed[at] = worse;
            cases.push((text(&changed), 12, at + 1));
        }
    }
    refused_all(cases);
}

#[test]
fn line_1_without_its_letter() {
    let firsts = [
        "g\t3\t2\t3\t50\t0\t0",
        "H\t3\t2\t3\t50\t0\t0",
        "GG\t3\t2\t3\t50\t0\t0",
        "3\t2\t3\t50\t0\t0",
        "\t3\t2\t3\t50\t0\t0",
        "G3\t2\t3\t50\t0\t0",
        "G",
        "G\t",
    ];
    let cases = firsts.map(|first| {
        let mut changed = lines();
        changed[0] = first.to_string();
        (text(&changed), 12, 1)
    });
    refused_all(cases.into());
}

#[test]
fn a_missing_line() {
    let whole = lines();
    let cases = (0..whole.len()).map(|count| (text(&whole[..count]), 12, count + 1));
    refused_all(cases.collect());
}

#[test]
fn a_line_without_its_end() {
    let whole = lines();
    let cases = (1..=whole.len()).map(|count| {
        let mut cut = text(&whole[..count]);
        cut.pop();
        (cut, 12, count)
    });
    refused_all(cases.collect());
}

#[test]
fn bytes_after_the_last_row() {
    let afters = ["\n", "0", "0\t0\t0\n", "\t", " ", "\r\n", "\0", "G", "x\n"];
    let cases = afters.map(|after| {
        let mut input = text(&lines());
        input.extend_from_slice(after.as_bytes());
        (input, 12, 8)
    });
    refused_all(cases.into());
}

#[test]
fn a_side_out_of_its_bounds() {
    let mut cases = Vec::new();
    for side in [0, 1, 65, 512, 65_535] {
        for axis in 0..3 {
            let mut sides = [2, 2, 2];
            sides[axis] = side;
            let [nx, ny, nz] = sides;
            let first = format!("G\t{nx}\t{ny}\t{nz}\t50\t0\t0");
            cases.push((text(&[first]), 1, 0));
        }
    }
    refused_all(cases);
}

#[test]
fn more_than_512_samples() {
    let shapes = [
        "3\t9\t19",
        "19\t3\t9",
        "9\t19\t3",
        "8\t8\t9",
        "2\t5\t52",
        "64\t64\t64",
    ];
    let cases = shapes.map(|sides| (text(&[format!("G\t{sides}\t50\t0\t0")]), 13, 0));
    refused_all(cases.into());
}

#[test]
fn rounds_or_weight_too_large() {
    let pairs = [
        "101\t0", "0\t257", "101\t257", "65535\t0", "0\t65535", "100\t257", "101\t256",
    ];
    let cases = pairs.map(|pair| (text(&[format!("G\t2\t2\t2\t50\t{pair}")]), 10, 0));
    refused_all(cases.into());
}

/// Each input breaks what comes later in the order of the checks too.
#[test]
fn the_first_check_that_fails_is_named() {
    let cases = [
        ("G\t65\t64\t64\t50\t101\t257\t0", 12, 1),
        ("G\t65\t64\t64\t65536\t101\t257", 12, 1),
        ("G\t65536\t64\t64\t50\t101\t257", 12, 1),
        ("G\t1\t2\t2\t50\t101\t0257", 12, 1),
        ("G\t65\t64\t64\t50\t101\t257", 1, 0),
        ("G\t64\t64\t1\t50\t101\t257", 1, 0),
        ("G\t2\t2\t1\t50\t101\t257", 1, 0),
        ("G\t64\t64\t64\t50\t101\t257", 13, 0),
        ("G\t64\t64\t64\t50\t0\t0", 13, 0),
        ("G\t2\t2\t2\t50\t101\t257", 10, 0),
        ("G\t2\t2\t2\t50\t0\t257", 10, 0),
        ("G\t2\t2\t2\t50\t0\t0", 12, 2),
    ];
    let cases = cases.map(|(first, number, line)| (text(&[first, "x"]), number, line));
    refused_all(cases.into());
}

#[test]
fn the_first_malformed_line_is_named() {
    let whole = lines();
    let cases = (1..whole.len()).map(|first| {
        let mut changed = whole.clone();
        for line in &mut changed[first..] {
            line.push('x');
        }
        changed.push("more".to_string());
        (text(&changed), 12, first + 1)
    });
    refused_all(cases.collect());
}

#[test]
fn line_1_decides_before_a_missing_row() {
    refused_all(vec![
        (b"G\t65\t2\t2\t50\t0\t0\n".to_vec(), 1, 0),
        (b"G\t64\t64\t64\t50\t0\t0\n".to_vec(), 13, 0),
        (b"G\t2\t2\t2\t50\t101\t0\n".to_vec(), 10, 0),
        (b"G\t2\t2\t2\t50\t0\t0\n".to_vec(), 12, 2),
        (b"G\t65\t2\t2\t50\t0\t0".to_vec(), 12, 1),
    ]);
}
