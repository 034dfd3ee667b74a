//! Reading a mesh back: "the reader for files of M, V, T and S lines over lent
//! rooms".
//!
//! "It takes exactly what our writer writes for some mesh that passes 7 to 9".
//! Where document 02 leaves something open, this module reads it so:
//!
//! - Lines, fields and numbers are those of the program's input: every line
//!   ends with LF, one tab stands between two fields, `0` is a number and `00`
//!   is none. "a number of 2^32 or more" is bad form in every field but the
//!   volume, in line 1 as well.
//! - A volume has a minus sign exactly if it is negative, so `-0` is bad form.
//!   The limit itself is taken, with either sign.
//! - The lines come in the writer's order, as many of each letter as line 1
//!   says. A line that starts with another letter than the one that is due is
//!   bad. A line that is missing or stops before its LF is bad at the number it
//!   would have; bytes after the last line, a lone LF included, are bad at the
//!   number after it.
//! - "line 1 first; then 4, 5, 11 for rooms and bounds, 3, 15 for the other
//!   lines": 15 names the first bad line in the order of the file, and a point
//!   whose edge number is not above the one before makes its line bad.
//! - A number that is well formed is not judged by the lines: a coordinate, a
//!   mark or a point number of any size below 2^32 is left to 8, 9 and 7, and
//!   what an S line says to 16. More shells than points are left to 16 too.
//! - Lines are counted from 1. The line is 0 unless the number is 15.

use crate::lines::{fields_after, number, numbers, Lines};
use crate::mesh::{self, MOST_COORDINATE, MOST_POINTS, MOST_TRIANGLES};
use crate::shells::{records_of, Shell};
use crate::text::TextMesh;

/// "a volume above 1,000,000·16,128³ in size" is bad form.
pub const MOST_VOLUME: i64 = 1_000_000 * (MOST_COORDINATE as i64).pow(3);

/// What line 1 says: "M: points, triangles, shells."
#[derive(Clone, Copy, PartialEq, Eq, Debug)]
pub struct Counts {
    /// The number of points.
    pub points: u32,
    /// The number of triangles.
    pub triangles: u32,
    /// The number of shells.
    pub shells: u32,
}

/// What the reader returns.
#[derive(Clone, Copy, PartialEq, Eq, Debug)]
pub struct Read {
    /// The refusal number, 0 if granted.
    pub number: u32,
    /// The line that is refused, 0 unless the number is 15.
    pub line: usize,
    /// The number of points, 0 if refused.
    pub points: u32,
    /// The number of triangles, 0 if refused.
    pub triangles: u32,
    /// The number of shells, 0 if refused.
    pub shells: u32,
}

/// The number of a refusal and its line.
pub type Refusal = (u32, usize);

/// "15, with the line number"
fn bad(line: usize) -> Refusal {
    (15, line)
}

/// `number` if it is a refusal, which names no line.
fn unless_0(number: u32) -> Result<(), Refusal> {
    if number == 0 {
        Ok(())
    } else {
        Err((number, 0))
    }
}

/// "A refusal gives the number and zero counts".
fn refused((number, line): Refusal) -> Read {
    Read {
        number,
        line,
        points: 0,
        triangles: 0,
        shells: 0,
    }
}

fn granted(counts: Counts) -> Read {
    Read {
        number: 0,
        line: 0,
        points: counts.points,
        triangles: counts.triangles,
        shells: counts.shells,
    }
}

/// The numbers that follow the letter of a line.
fn line_of<const COUNT: usize>(letter: u8, line: &[u8]) -> Option<[u32; COUNT]> {
    numbers(fields_after(letter, line)?)
}

fn counts_line(line: &[u8]) -> Option<Counts> {
    let [points, triangles, shells] = line_of(b'M', line)?;
    Some(Counts {
        points,
        triangles,
        shells,
    })
}

/// A V line whose edge number is above the one `before`, if there is one.
fn point_line(line: &[u8], before: Option<u32>) -> Option<[u32; 5]> {
    let point = line_of(b'V', line)?;
    before.is_none_or(|edge| edge < point[0]).then_some(point)
}

fn triangle_line(line: &[u8]) -> Option<[u32; 3]> {
    line_of(b'T', line)
}

fn shell_line(line: &[u8]) -> Option<Shell> {
    let [low, points, triangles, touches, sixfold, extent @ ..] = fields_after::<11>(b'S', line)?;
    let [low, points, triangles, touches] = numbers([low, points, triangles, touches])?;
    let [least_x, greatest_x, least_y, greatest_y, least_z, greatest_z] = numbers(extent)?;
    Some(Shell {
        low,
        points,
        triangles,
        touches,
        volume: volume(sixfold)?,
        least: [least_x, least_y, least_z],
        greatest: [greatest_x, greatest_y, greatest_z],
    })
}

/// A volume: a number up to the limit, after a minus sign if it is negative.
fn volume(field: &[u8]) -> Option<i64> {
    let within = |field| number(field).filter(|&size: &i64| size <= MOST_VOLUME);
    match field.strip_prefix(b"-") {
        None => within(field),
        Some(field) => within(field).filter(|&size| size != 0).map(|size| -size),
    }
}

/// Refusals 4, 5 and 11, in this order; 0 if there is none. The rooms have
/// place for so many points, triangles and records.
fn check_counts(counts: Counts, points: usize, triangles: usize, records: usize) -> u32 {
    // "points exceed 250,000 or the least of the point, edge and mark rooms"
    if counts.points as usize > MOST_POINTS.min(points) {
        return 4;
    }
    // "triangles exceed 500,000 or their room"
    if counts.triangles as usize > MOST_TRIANGLES.min(triangles) {
        return 5;
    }
    // "more shells than records lent"
    if counts.shells as usize > records {
        return 11;
    }
    0
}

/// What the lines after line 1 say, or the number of the first that is bad.
///
/// A mark has one byte of room. One over 255 is kept as 255, which is over 1
/// just as well.
fn other_lines(lines: &mut Lines, counts: Counts) -> Result<TextMesh, usize> {
    let mut mesh = TextMesh::default();
    for _ in 0..counts.points {
        let before = mesh.edges.last().copied();
        let [edge, x, y, z, mark] = lines.next(|line| point_line(line, before))?;
        mesh.edges.push(edge);
        mesh.points.extend([x, y, z]);
        mesh.marks.push(u8::try_from(mark).unwrap_or(u8::MAX));
    }
    for _ in 0..counts.triangles {
        mesh.triangles.extend(lines.next(triangle_line)?);
    }
    for _ in 0..counts.shells {
        mesh.records.push(lines.next(shell_line)?);
    }
    lines.end()?;
    Ok(mesh)
}

/// The mesh of the lines after line 1: "15 for the other lines, 7 to 9, and 16
/// for S lines or a shell count that differ."
///
/// The counts are within the bounds and the lists as long as they say, so 6 is
/// not among the refusals.
fn mesh_after(lines: &mut Lines, counts: Counts) -> Result<TextMesh, Refusal> {
    let mesh = other_lines(lines, counts).map_err(bad)?;
    unless_0(mesh::check(&mesh.points, &mesh.triangles, &mesh.marks))?;
    if mesh.records != records_of(&mesh.points, &mesh.triangles, &mesh.marks) {
        return Err((16, 0));
    }
    Ok(mesh)
}

/// What line 1 says, whatever follows it. None if it is refused with 15.
pub fn read_counts(text: &[u8]) -> Option<Counts> {
    Lines::of(text).next(counts_line).ok()
}

/// The mesh of a text, from rooms that always suffice, or the refusal.
///
/// 11 and 3 are then not among the refusals, and 4 and 5 only where a bound is
/// exceeded.
pub fn read_text(text: &[u8]) -> Result<TextMesh, Refusal> {
    let mut lines = Lines::of(text);
    let counts = lines.next(counts_line).map_err(bad)?;
    unless_0(check_counts(counts, usize::MAX, usize::MAX, usize::MAX))?;
    mesh_after(&mut lines, counts)
}

/// Puts a list in front of a room; the rest of the room stays.
fn fill<T: Copy>(room: &mut [T], list: &[T]) {
    room[..list.len()].copy_from_slice(list);
}

/// Reads a mesh into lent rooms: points, edge numbers, marks, triangles and
/// records from the front; the rest of each room stays.
///
/// "Work room: 6V + 3T numbers. Refusals: 15, [..] line 1 first; then 4, 5, 11
/// for rooms and bounds, 3, 15 for the other lines, 7 to 9, and 16". V and T are
/// those of line 1. A refusal leaves every result room. "a refusal that comes
/// after 3 in its call's order leaves the work room zero. So does a granted
/// call."
pub fn read_mesh(
    text: &[u8],
    points: &mut [u32],
    edges: &mut [u32],
    marks: &mut [u8],
    triangles: &mut [u32],
    records: &mut [Shell],
    work: &mut [u32],
) -> Read {
    let mut lines = Lines::of(text);
    let counts = match lines.next(counts_line) {
        Ok(counts) => counts,
        Err(line) => return refused(bad(line)),
    };
    // "A room for points or triangles counts its whole threes."
    let point_room = (points.len() / 3).min(edges.len()).min(marks.len());
    let number = check_counts(counts, point_room, triangles.len() / 3, records.len());
    if number != 0 {
        return refused((number, 0));
    }
    // "a work or result room of fixed length has another length"
    if work.len() != 6 * counts.points as usize + 3 * counts.triangles as usize {
        return refused((3, 0));
    }
    work.fill(0);
    let mesh = match mesh_after(&mut lines, counts) {
        Ok(mesh) => mesh,
        Err(refusal) => return refused(refusal),
    };
    fill(points, &mesh.points);
    fill(edges, &mesh.edges);
    fill(marks, &mesh.marks);
    fill(triangles, &mesh.triangles);
    fill(records, &mesh.records);
    granted(counts)
}
