//! The program for small grids, as a function from its whole input to its whole
//! output.
//!
//! Where document 01 leaves something open, this module reads it so:
//!
//! - "Input (tabs shown as spaces)" stands over the input only. The output has
//!   tabs between its fields as well, and each of its lines ends with LF; so
//!   does the one line of a refusal.
//! - "lines ended by LF": bytes without an LF after them are no line. Input
//!   that stops inside a line, the last row included, is refused with 12 at the
//!   number of that line, just as if the line were missing.
//! - Lines are counted from 1, so the first row is line 2. "A missing line"
//!   is refused at the number it would have; "bytes after the last" are refused
//!   at the number after the last row, whatever they are, a lone LF included.
//! - "fields parted by tabs": one tab between two fields, none before the first
//!   or after the last. A line with more or fewer fields than it should have
//!   is malformed. Any byte that is neither a digit nor such a tab, a space or
//!   a CR for instance, makes a row malformed.
//! - "no needless zero": `0` is a number; `00` and `07` are not. An empty field
//!   is no number. "at most 65,535" is part of what a number is, in line 1 as
//!   well, so a side of 65,536 is refused with 12 and not with 1.
//! - The rows are checked in order, so the first malformed line is the one that
//!   is named; bytes after the last row come last.
//! - A negative volume is printed with a leading `-`. A mesh without points is
//!   printed as its `M` line alone.

use std::fmt::Write;

use crate::extract::extract;
use crate::grid::are_sides;
use crate::lines::{fields, fields_after, number, numbers, Lines};
use crate::mesh::threes;
use crate::shells::{records_of, Shell};
use crate::smooth::smooth;

/// "A refusal prints one line `R`, number, line (0 unless 12)."
struct Refusal {
    number: u32,
    line: usize,
}

impl Refusal {
    /// A refusal that names no line.
    fn plain(number: u32) -> Refusal {
        Refusal { number, line: 0 }
    }

    /// "text line malformed"
    fn malformed(line: usize) -> Refusal {
        Refusal { number: 12, line }
    }
}

/// What the input asks for.
struct Task {
    sides: [u32; 3],
    grey: u16,
    rounds: u32,
    weight: u32,
    samples: Vec<u16>,
}

/// The six numbers of line 1: "`G`, nx, ny, nz, grey value, rounds, weight".
///
/// "Numbers have no sign and no needless zero, and are at most 65,535."
fn first_line(line: &[u8]) -> Option<[u16; 6]> {
    numbers(fields_after(b'G', line)?)
}

/// One of the "rows of nx samples".
fn row(line: &[u8], nx: u32) -> Option<Vec<u16>> {
    let samples: Vec<u16> = fields(line).map(number).collect::<Option<_>>()?;
    (samples.len() == nx as usize).then_some(samples)
}

/// "Checks: line 1 (12), sides (1), 512 samples (13), rounds and weight (10),
/// rows (12)."
fn read(input: &[u8]) -> Result<Task, Refusal> {
    let mut lines = Lines::of(input);
    let [nx, ny, nz, grey, rounds, weight] = lines.next(first_line).map_err(Refusal::malformed)?;
    let sides = [nx, ny, nz].map(u32::from);
    if !are_sides(sides) {
        return Err(Refusal::plain(1));
    }
    if sides.iter().product::<u32>() > 512 {
        return Err(Refusal::plain(13));
    }
    if rounds > 100 || weight > 256 {
        return Err(Refusal::plain(10));
    }
    // "then ny·nz rows of nx samples, y fastest, then z": the samples follow
    // one another in the order of the grid.
    let mut samples = Vec::new();
    for _ in 0..sides[1] * sides[2] {
        let row = lines.next(|line| row(line, sides[0]));
        samples.extend(row.map_err(Refusal::malformed)?);
    }
    lines.end().map_err(Refusal::malformed)?;
    Ok(Task {
        sides,
        grey,
        rounds: u32::from(rounds),
        weight: u32::from(weight),
        samples,
    })
}

/// A mesh as its text tells it.
#[derive(Clone, PartialEq, Eq, Debug, Default)]
pub struct TextMesh {
    /// Three coordinates of each point.
    pub points: Vec<u32>,
    /// The grid edge of each point.
    pub edges: Vec<u32>,
    /// The mark of each point.
    pub marks: Vec<u8>,
    /// Three points of each triangle.
    pub triangles: Vec<u32>,
    /// The record of each shell.
    pub records: Vec<Shell>,
}

impl TextMesh {
    /// A mesh that passes the checks, with the records of its shells.
    pub fn of(points: Vec<u32>, edges: Vec<u32>, marks: Vec<u8>, triangles: Vec<u32>) -> TextMesh {
        let records = records_of(&points, &triangles, &marks);
        TextMesh {
            points,
            edges,
            marks,
            triangles,
            records,
        }
    }
}

/// The mesh that the input asks for, not smoothed, its shells not listed.
fn extracted(task: &Task) -> TextMesh {
    let [nx, ny, nz] = task.sides;
    // Rooms for as many points as there are grid edges, and for five triangles
    // of each cube.
    let most = task.samples.len();
    let mut points = vec![0; 9 * most];
    let mut edges = vec![0; 3 * most];
    let mut marks = vec![0; 3 * most];
    let mut triangles = vec![0; 15 * most];
    let mut work = vec![0; 3 * most];
    let extracted = extract(
        nx,
        ny,
        nz,
        task.grey,
        &task.samples,
        &mut points,
        &mut edges,
        &mut marks,
        &mut triangles,
        &mut work,
    );
    assert_eq!(extracted.number, 0, "a checked grid is extracted");
    let point_count = extracted.points as usize;
    points.truncate(3 * point_count);
    edges.truncate(point_count);
    marks.truncate(point_count);
    triangles.truncate(3 * extracted.triangles as usize);
    TextMesh {
        points,
        edges,
        marks,
        triangles,
        records: Vec::new(),
    }
}

/// The mesh with its points smoothed as the input asks for, its shells listed.
fn smoothed(task: &Task, mesh: TextMesh) -> TextMesh {
    let (point_count, triangle_count) = (mesh.marks.len(), mesh.triangles.len() / 3);
    let mut smoothed = vec![0; 3 * point_count];
    let mut work = vec![0; 6 * triangle_count + 5 * point_count + 1];
    let number = smooth(
        &mesh.points,
        &mesh.triangles,
        &mesh.marks,
        task.rounds,
        task.weight,
        &mut smoothed,
        &mut work,
    );
    assert_eq!(number, 0, "an extracted mesh is smoothed");
    TextMesh::of(smoothed, mesh.edges, mesh.marks, mesh.triangles)
}

/// The text of a mesh: "M: points, triangles, shells. V: grid edge, smoothed x,
/// y, z, mark. T: three points. S: the record of the smoothed mesh, in the order
/// above."
pub fn mesh_text(mesh: &TextMesh) -> String {
    let mut out = String::new();
    let counts = [
        mesh.edges.len(),
        mesh.triangles.len() / 3,
        mesh.records.len(),
    ];
    line(&mut out, 'M', &[&counts[0], &counts[1], &counts[2]]);
    for ((edge, [x, y, z]), mark) in mesh.edges.iter().zip(threes(&mesh.points)).zip(&mesh.marks) {
        line(&mut out, 'V', &[edge, &x, &y, &z, mark]);
    }
    for [a, b, c] in threes(&mesh.triangles) {
        line(&mut out, 'T', &[&a, &b, &c]);
    }
    for shell in &mesh.records {
        shell_line(&mut out, shell);
    }
    out
}

/// "the S line gets the six at its end [..] the pairs in the order x, y, z": a
/// pair is the least and then the greatest coordinate.
fn shell_line(out: &mut String, shell: &Shell) {
    let ([least_x, least_y, least_z], [greatest_x, greatest_y, greatest_z]) =
        (shell.least, shell.greatest);
    line(
        out,
        'S',
        &[
            &shell.low,
            &shell.points,
            &shell.triangles,
            &shell.touches,
            &shell.volume,
            &least_x,
            &greatest_x,
            &least_y,
            &greatest_y,
            &least_z,
            &greatest_z,
        ],
    );
}

/// Adds one line: the letter and the numbers, parted by tabs, ended by LF.
fn line(out: &mut String, letter: char, numbers: &[&dyn std::fmt::Display]) {
    out.push(letter);
    for number in numbers {
        write!(out, "\t{number}").expect("a string takes every number");
    }
    out.push('\n');
}

/// The whole output of the program for any input.
pub fn run(input: &[u8]) -> Vec<u8> {
    let mut out = String::new();
    match read(input) {
        Ok(task) => out = mesh_text(&smoothed(&task, extracted(&task))),
        Err(Refusal { number, line: at }) => line(&mut out, 'R', &[&number, &at]),
    }
    out.into_bytes()
}
