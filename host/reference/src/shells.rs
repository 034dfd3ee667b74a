//! The list of shells.

use std::collections::VecDeque;

use crate::mesh;

/// The record of one shell.
#[derive(Clone, Copy, PartialEq, Eq, Debug, Default)]
pub struct Shell {
    /// Its lowest point.
    pub low: u32,
    /// The number of its points.
    pub points: u32,
    /// The number of its triangles.
    pub triangles: u32,
    /// "touches (1 if any point is marked, else 0)".
    pub touches: u32,
    /// "sixfold volume: the sum over its triangles of the determinant of the
    /// three points as rows, a signed whole number".
    pub volume: i64,
    /// "the least and greatest x, y and z of its points": the least, out of the
    /// point list that the call is lent.
    pub least: [u32; 3],
    /// "the least and greatest x, y and z of its points": the greatest.
    pub greatest: [u32; 3],
}

/// What the shell list returns.
#[derive(Clone, Copy, PartialEq, Eq, Debug)]
pub struct Listed {
    /// The refusal number, 0 if granted.
    pub number: u32,
    /// The number of shells, 0 if refused.
    pub shells: u32,
}

fn refused(number: u32) -> Listed {
    Listed { number, shells: 0 }
}

/// "the determinant of the three points as rows".
///
/// It stays below 2·16,128³ in size, so that 500,000 of them fit an i64.
fn determinant([a, b, c]: [[i64; 3]; 3]) -> i64 {
    a[0] * (b[1] * c[2] - b[2] * c[1]) - a[1] * (b[0] * c[2] - b[2] * c[0])
        + a[2] * (b[0] * c[1] - b[1] * c[0])
}

/// The shell number of every point, and the lowest point of every shell.
///
/// "Shells are numbered from 0 in rising order of lowest point". Points are
/// taken in rising order; one without a shell is the lowest of a new shell, and
/// every point that triangle sides lead to from there belongs to it.
fn walk(point_count: usize, triangles: &[u32]) -> (Vec<u32>, Vec<u32>) {
    let neighbours = mesh::neighbours(point_count, triangles);
    let mut shell_of = vec![None; point_count];
    let mut lowest = Vec::new();
    for (low, point) in (0..).zip(0..point_count) {
        if shell_of[point].is_some() {
            continue;
        }
        let shell = lowest.len() as u32;
        lowest.push(low);
        shell_of[point] = Some(shell);
        let mut waiting = VecDeque::from([point]);
        while let Some(reached) = waiting.pop_front() {
            for &neighbour in &neighbours[reached] {
                let neighbour = neighbour as usize;
                if shell_of[neighbour].is_none() {
                    shell_of[neighbour] = Some(shell);
                    waiting.push_back(neighbour);
                }
            }
        }
    }
    (shell_of.into_iter().flatten().collect(), lowest)
}

/// The record of every shell, given the shell number of every point and the
/// lowest point of every shell. The mesh has passed its checks.
///
/// A record starts at its lowest point, whose place is the box of that point
/// alone, and takes in its points one by one, then its triangles.
fn filled(
    points: &[u32],
    triangles: &[u32],
    marks: &[u8],
    shell_of: &[u32],
    lowest: &[u32],
) -> Vec<Shell> {
    let places: Vec<[u32; 3]> = mesh::threes(points).collect();
    let alone = |&low: &u32| Shell {
        low,
        least: places[low as usize],
        greatest: places[low as usize],
        ..Shell::default()
    };
    let mut list: Vec<Shell> = lowest.iter().map(alone).collect();
    for ((&shell, place), &mark) in shell_of.iter().zip(&places).zip(marks) {
        let record = &mut list[shell as usize];
        record.points += 1;
        if mark == 1 {
            record.touches = 1;
        }
        for (axis, &coordinate) in place.iter().enumerate() {
            record.least[axis] = record.least[axis].min(coordinate);
            record.greatest[axis] = record.greatest[axis].max(coordinate);
        }
    }
    for corners in mesh::threes(triangles) {
        let record = &mut list[shell_of[corners[0] as usize] as usize];
        record.triangles += 1;
        record.volume += determinant(corners.map(|p| places[p as usize].map(i64::from)));
    }
    list
}

/// The record of every shell of a mesh that has passed its checks.
pub fn records_of(points: &[u32], triangles: &[u32], marks: &[u8]) -> Vec<Shell> {
    let (shell_of, lowest) = walk(marks.len(), triangles);
    filled(points, triangles, marks, &shell_of, &lowest)
}

/// "A granted list gives the shell number of every point and one record per
/// shell, in a lent list of records [..] record n is shell n; records past the
/// last stay. Shell work room: 2V numbers."
///
/// "Calls on a mesh: 6, 7, 8, 9, [..] then 3, then 11 for shells." The list of
/// shell numbers is V long. Refusal 11 comes after 3, so it leaves the work
/// room zero; so does a granted call.
pub fn shells(
    points: &[u32],
    triangles: &[u32],
    marks: &[u8],
    numbers: &mut [u32],
    records: &mut [Shell],
    work: &mut [u32],
) -> Listed {
    let number = mesh::check(points, triangles, marks);
    if number != 0 {
        return refused(number);
    }
    let point_count = marks.len();
    if numbers.len() != point_count || work.len() != 2 * point_count {
        return refused(3);
    }
    work.fill(0);

    let (shell_of, lowest) = walk(point_count, triangles);
    // "more shells than records lent"
    if lowest.len() > records.len() {
        return refused(11);
    }

    let list = filled(points, triangles, marks, &shell_of, &lowest);
    numbers.copy_from_slice(&shell_of);
    records[..list.len()].copy_from_slice(&list);
    Listed {
        number: 0,
        shells: list.len() as u32,
    }
}
