//! Summaries and queries on both sides: each call on equal rooms with guard words around them, and afterwards the same answer and the same content of every
//! place.

use viewer::{Extracted, Queried, SUMMARY_LENGTH};

use crate::grids::Grid;
use crate::tools::{Lengths, Rooms};

/// So many guard words stand before and behind each room that is lent.
const AROUND: usize = 8;

/// What is lent of a room.
fn inner<T>(room: &mut [T]) -> &mut [T] {
    let end = room.len() - AROUND;
    &mut room[AROUND..end]
}

/// A summary's room of this length with what is around it, full of guard values.
fn guarded(length: usize) -> Vec<u16> {
    (0..(length + 2 * AROUND) as u32)
        .map(|i| 0xa5a5 ^ i.wrapping_mul(0x4943) as u16)
        .collect()
}

/// A summary built in a room of this length on both sides: the same number, and the same content of every place. A refusal leaves the room. Answers the number
/// and what was lent.
pub fn build_in(grid: &Grid, length: usize) -> (u32, Vec<u16>) {
    let before = guarded(length);
    let (mut proved, mut plain) = (before.clone(), before.clone());
    let [nx, ny, nz] = grid.sides;
    let number = viewer::summary(grid.sides, &grid.samples, inner(&mut proved));
    let expected = reference::summary::summary(nx, ny, nz, &grid.samples, inner(&mut plain));
    assert_eq!(number, expected, "{grid:?}, a room of {length}");
    assert!(proved == plain, "{grid:?}, a room of {length}");
    assert!(number == 0 || proved == before, "{grid:?}, {number}");
    (number, inner(&mut proved).to_vec())
}

/// The summary of a grid, built on both sides.
pub fn built(grid: &Grid) -> Vec<u16> {
    let (number, summary) = build_in(grid, SUMMARY_LENGTH);
    assert_eq!(number, 0, "{grid:?}");
    summary
}

/// The rooms of a query with what is around them.
#[derive(Clone, PartialEq)]
struct Held(Rooms);

impl Held {
    /// Rooms full of guard values, a different one at each place.
    fn guarded(lengths: Lengths) -> Held {
        Held(Rooms::guarded(Lengths {
            points: lengths.points + 2 * AROUND,
            edges: lengths.edges + 2 * AROUND,
            marks: lengths.marks + 2 * AROUND,
            triangles: lengths.triangles + 2 * AROUND,
            work: lengths.work + 2 * AROUND,
        }))
    }

    /// The rooms that are lent.
    fn lent(&mut self) -> viewer::Rooms<'_> {
        viewer::Rooms {
            points: inner(&mut self.0.points),
            edges: inner(&mut self.0.edges),
            marks: inner(&mut self.0.marks),
            triangles: inner(&mut self.0.triangles),
            work: inner(&mut self.0.work),
        }
    }

    /// The library's query.
    fn query(&mut self, grid: &Grid, summary: &[u16]) -> Queried {
        viewer::query(grid.sides, grid.grey, &grid.samples, summary, self.lent())
    }

    /// The reference's query.
    fn query_plainly(&mut self, grid: &Grid, summary: &[u16]) -> Queried {
        let ([nx, ny, nz], rooms) = (grid.sides, self.lent());
        let found = reference::query::query(
            nx,
            ny,
            nz,
            grid.grey,
            &grid.samples,
            summary,
            rooms.points,
            rooms.edges,
            rooms.marks,
            rooms.triangles,
            rooms.work,
        );
        Queried {
            number: found.number,
            points: found.points,
            triangles: found.triangles,
            blocks: found.blocks,
        }
    }

    /// The library's extraction.
    fn extract(&mut self, grid: &Grid) -> Extracted {
        viewer::extract(grid.sides, grid.grey, &grid.samples, self.lent())
    }

    /// The same rooms with the work room zero.
    fn cleared(mut self) -> Held {
        inner(&mut self.0.work).fill(0);
        self
    }
}

/// What a refused query answers.
pub fn refused(number: u32) -> Queried {
    Queried {
        number,
        points: 0,
        triangles: 0,
        blocks: 0,
    }
}

/// A refusal gives no counts, and leaves the result rooms, and the work room as it was up to 3 and zero after it.
fn left(found: Queried, after: &Held, before: Held) {
    let number = found.number;
    assert_eq!(found, refused(number));
    let expected = match number {
        1..=3 => before,
        _ => before.cleared(),
    };
    assert!(*after == expected, "the rooms after {number}");
}

/// How many cubes of a grid are crossed.
pub fn crossed(grid: &Grid) -> usize {
    reference::query::crossed_cubes(grid.sides, grid.grey, &grid.samples).len()
}

/// A granted query looks at one block and at eight for each that is opened, and at no more than the bound.
fn within(blocks: u32, crossed: usize) {
    assert_eq!(blocks % 8, 1);
    assert!(blocks as usize <= 1 + 48 * crossed, "{blocks}, {crossed}");
}

/// One query on both sides, on equal rooms of these lengths: the same answer, and the same content of every place. It is what the extractor answers and leaves,
/// save where the summary is refused. Rooms are left as each refusal promises, and the blocks are within their bound.
pub fn same(grid: &Grid, summary: &[u16], lengths: Lengths) -> Queried {
    let before = Held::guarded(lengths);
    let (mut proved, mut plain) = (before.clone(), before.clone());
    let found = proved.query(grid, summary);
    let at = format!("{grid:?}, {lengths:?}");
    assert_eq!(found, plain.query_plainly(grid, summary), "{at}");
    assert!(proved == plain, "the rooms, {at}");
    if found.number != 19 {
        let mut extracted = before.clone();
        let by_extractor = extracted.extract(grid);
        let answer = (found.number, found.points, found.triangles);
        let wanted = (
            by_extractor.number,
            by_extractor.points,
            by_extractor.triangles,
        );
        assert_eq!(answer, wanted, "the extractor's answer, {at}");
        assert!(proved == extracted, "the extractor's rooms, {at}");
    }
    match found.number {
        0 => within(found.blocks, crossed(grid)),
        _ => left(found, &proved, before),
    }
    found
}

/// The library alone refuses this summary with 19, in whatever rooms, and leaves them as promised.
pub fn refuses_summary(grid: &Grid, summary: &[u16], lengths: Lengths) {
    let before = Held::guarded(lengths);
    let mut proved = before.clone();
    let found = proved.query(grid, summary);
    assert_eq!(found.number, 19, "{grid:?}, {lengths:?}");
    left(found, &proved, before);
}
