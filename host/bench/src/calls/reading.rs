//! The text of a mesh read back, with rooms for what its first line says. There is no call of the reference's beside it, but a plain loop that splits the
//! lines and parses the numbers, and checks nothing else.

use std::str::{FromStr, Split};

use viewer::Shell;

use super::Call;
use crate::subject::Subject;
use crate::Failure;

pub struct Reading {
    points: Vec<u32>,
    edges: Vec<u32>,
    marks: Vec<u8>,
    triangles: Vec<u32>,
    records: Vec<Shell>,
    work: Vec<u32>,
}

/// The next field of a line, as a number.
fn next<T: FromStr>(fields: &mut Split<'_, char>) -> Result<T, Failure>
where
    T::Err: std::error::Error + 'static,
{
    Ok(fields.next().ok_or("a field is missing")?.parse()?)
}

fn record(fields: &mut Split<'_, char>) -> Result<Shell, Failure> {
    Ok(Shell {
        low: next(fields)?,
        points: next(fields)?,
        triangles: next(fields)?,
        touches: next(fields)?,
        volume: next(fields)?,
        least_x: next(fields)?,
        greatest_x: next(fields)?,
        least_y: next(fields)?,
        greatest_y: next(fields)?,
        least_z: next(fields)?,
        greatest_z: next(fields)?,
    })
}

impl Reading {
    fn clear(&mut self) {
        self.points.clear();
        self.edges.clear();
        self.marks.clear();
        self.triangles.clear();
        self.records.clear();
    }

    /// The lines into vectors whose memory is there already.
    fn parse(&mut self, text: &[u8]) -> Result<(), Failure> {
        self.clear();
        for line in std::str::from_utf8(text)?.lines() {
            let mut fields = line.split('\t');
            match fields.next() {
                Some("V") => {
                    self.edges.push(next(&mut fields)?);
                    for _ in 0..3 {
                        self.points.push(next(&mut fields)?);
                    }
                    self.marks.push(next(&mut fields)?);
                }
                Some("T") => {
                    for _ in 0..3 {
                        self.triangles.push(next(&mut fields)?);
                    }
                }
                Some("S") => self.records.push(record(&mut fields)?),
                _ => {}
            }
        }
        Ok(())
    }
}

impl Call for Reading {
    const NAME: &'static str = "reading";
    const UNIT: &'static str = "byte";
    const FILTER: &'static str = "";

    fn lent(on: &Subject) -> Reading {
        let counts = viewer::read_counts(&on.text);
        let [points, triangles, shells] =
            [counts.points, counts.triangles, counts.shells].map(|count| count as usize);
        Reading {
            points: vec![1; 3 * points],
            edges: vec![1; points],
            marks: vec![1; points],
            triangles: vec![1; 3 * triangles],
            records: vec![super::shells::NONE; shells],
            work: vec![1; viewer::read_work(points, triangles)],
        }
    }

    fn library(&mut self, on: &Subject) -> u32 {
        let rooms = viewer::Rooms {
            points: &mut self.points,
            edges: &mut self.edges,
            marks: &mut self.marks,
            triangles: &mut self.triangles,
            work: &mut self.work,
        };
        viewer::read(&on.text, rooms, &mut self.records).number
    }

    fn reference(&mut self, on: &Subject) -> u32 {
        u32::from(self.parse(&on.text).is_err())
    }

    fn same(library: &Reading, reference: &Reading) -> bool {
        library.points == reference.points
            && library.edges == reference.edges
            && library.marks == reference.marks
            && library.triangles == reference.triangles
            && library.records == reference.records
            && library.work.iter().all(|&number| number == 0)
    }

    fn input(on: &Subject) -> Subject {
        on.texted()
    }

    fn units(on: &Subject) -> usize {
        on.text.len()
    }
}
