//! The list as it is heard: the count first, then a line of plain sentences a shell, or a sentence a grey value. No table, no colour, every number once.

use std::fmt::Write;

use viewer::{Answer, Refusal, Shell, Shells};

/// The side of a voxel in units, in which places are told.
const UNITS: f64 = 256.0;

/// Six times the volume of a voxel, in cubes of a unit.
const VOXEL: f64 = 6.0 * UNITS * UNITS * UNITS;

/// What a shell is by its sign: a void inside metal counts negative.
fn kind(shell: &Shell) -> &'static str {
    match shell.volume.signum() {
        -1 => "void",
        1 => "island",
        _ => "shell of no volume",
    }
}

fn counted(count: usize, one: &str, many: &str) -> String {
    match count {
        1 => format!("1 {one}"),
        count => format!("{count} {many}"),
    }
}

/// How many shells of a kind touch no outer face.
fn inside(records: &[Shell], name: &str) -> usize {
    let of_kind = |shell: &&Shell| shell.touches == 0 && kind(shell) == name;
    records.iter().filter(of_kind).count()
}

/// How many shells touch the outer face, in words.
fn outside(records: &[Shell]) -> String {
    counted(
        records.iter().filter(|shell| shell.touches == 1).count(),
        "surface that touches the outer face",
        "surfaces that touch the outer face",
    )
}

/// "9 voids", and the islands and shells of no volume where there are some.
fn inner(records: &[Shell]) -> Vec<String> {
    let mut parts = vec![counted(inside(records, "void"), "void", "voids")];
    for (name, many) in [
        ("island", "islands"),
        ("shell of no volume", "shells of no volume"),
    ] {
        match inside(records, name) {
            0 => {}
            count => parts.push(counted(count, name, many)),
        }
    }
    parts
}

/// "9 voids, 1 surface that touches the outer face."
fn count(records: &[Shell]) -> String {
    let mut parts = inner(records);
    if records.iter().any(|shell| shell.touches == 1) {
        parts.push(outside(records));
    }
    parts.join(", ")
}

/// What a grey value gives. The value comes first, then the same counts in the same order for all: "Grey value 550: 9 voids, 0 surfaces that touch the outer face,
/// 984 triangles, 1537 blocks looked at."
pub fn tried(grey: u16, records: &[Shell], triangles: usize, blocks: u32) -> String {
    let mut parts = inner(records);
    parts.push(outside(records));
    parts.push(counted(triangles, "triangle", "triangles"));
    parts.push(counted(blocks as usize, "block", "blocks"));
    format!("Grey value {grey}: {} looked at.", parts.join(", "))
}

/// What is said of a grey value whose surface is refused.
pub fn refused_at(grey: u16, refusal: Refusal) -> String {
    let (number, words) = (refusal.number(), refusal.words());
    format!("Grey value {grey} is refused with number {number}: {words}.")
}

/// How many grey values were tried, and then what is said of each.
pub fn tries(sentences: &[String]) -> String {
    let count = counted(sentences.len(), "grey value", "grey values");
    let mut text = format!("{count} tried.\n");
    for sentence in sentences {
        writeln!(text, "{sentence}").expect("a string takes any text");
    }
    text
}

/// A coordinate in voxels, to three decimals. The quotient is exact, since a unit is 1/256 of a voxel; as with every number of the list it is then rounded to the
/// nearest, a half to the even decimal. Different coordinates stay different, since a unit is more than 0.003.
fn voxels(coordinate: u32) -> String {
    format!("{:.3}", f64::from(coordinate) / UNITS)
}

/// Where a shell lies: "from 10.250 to 13.500 along x, 4.000 to 7.125 along y and at 3.000 along z". One place along an axis is one number. "From" and "at" are
/// said where they change, so that a listener hears neither three times.
fn place(shell: &Shell) -> String {
    let axes = [
        ("", "x", shell.least_x, shell.greatest_x),
        (", ", "y", shell.least_y, shell.greatest_y),
        (" and ", "z", shell.least_z, shell.greatest_z),
    ];
    let (mut text, mut before) = (String::new(), "");
    for (link, axis, least, greatest) in axes {
        let (word, numbers) = match least == greatest {
            true => ("at ", voxels(least)),
            false => (
                "from ",
                format!("{} to {}", voxels(least), voxels(greatest)),
            ),
        };
        let said = if word == before { "" } else { word };
        write!(text, "{link}{said}{numbers} along {axis}").expect("a string takes any text");
        before = word;
    }
    text
}

/// The mean curvature of a shell's bent points, a voxel: on average, each point with its area for a weight, and at the sharpest.
fn bend(shells: &Shells, answers: &[Answer], shell: usize) -> String {
    let (mut points, mut greatest, mut sum, mut areas) = (0, 0.0f64, 0.0, 0.0);
    for (&number, answer) in shells.numbers.iter().zip(answers) {
        if let (true, &Answer::Bent(area, [x, y, z])) = (number as usize == shell, answer) {
            let bend = UNITS * (x * x + y * y + z * z).sqrt();
            points += 1;
            greatest = greatest.max(bend);
            sum += area * bend;
            areas += area;
        }
    }
    if points == 0 {
        return " It has no mean curvature.".to_string();
    }
    let (mean, greatest) = (format!("{:.3}", sum / areas), format!("{greatest:.3}"));
    if mean == greatest {
        return format!(" Its mean curvature is {mean} per voxel, and no point is sharper.");
    }
    format!(
        " Its mean curvature averages {mean} per voxel over its area, and is {greatest} at one point, the sharpest of {points}."
    )
}

/// The list of shells, and of each the mean curvature where answers are given.
pub fn list(shells: &Shells, answers: Option<&[Answer]>) -> String {
    let mut text = format!("{}.\n", count(&shells.records));
    for (n, shell) in shells.records.iter().enumerate() {
        let size = (shell.volume.unsigned_abs() as f64) / VOXEL;
        let what = match kind(shell) {
            "void" => format!("a void of {size:.3} voxels"),
            "island" => format!("an island of {size:.3} voxels"),
            _ => "a shell of no volume".to_string(),
        };
        let touch = match shell.touches {
            1 => ", and touches the outer face",
            _ => "",
        };
        let place = place(shell);
        let bend = answers.map_or(String::new(), |answers| bend(shells, answers, n));
        writeln!(text, "Shell {n} is {what}, {place}{touch}.{bend}")
            .expect("a string takes any text");
    }
    text
}
