//! What a call is timed on: a grid, the mesh of it, the mesh's shells, and the text of all these.

use std::io::{Read, Write};

use viewer::Shell;

use crate::Failure;

pub const GREY: u16 = 500;

#[derive(Default)]
pub struct Subject {
    pub side: u32,
    pub samples: Vec<u16>,
    pub points: Vec<u32>,
    pub edges: Vec<u32>,
    pub triangles: Vec<u32>,
    pub marks: Vec<u8>,
    pub records: Vec<Shell>,
    pub text: Vec<u8>,
}

impl Subject {
    /// A grid of so many samples a side, its mesh, the mesh's shells and its text.
    pub fn new(side: u32, samples: Vec<u16>) -> Result<Subject, Failure> {
        let surface = viewer::Surface::extract([side; 3], GREY, &samples)?;
        let records = surface.shells()?.records;
        Ok(Subject {
            text: surface.write(&records)?,
            side,
            samples,
            points: surface.points,
            edges: surface.edges,
            triangles: surface.triangles,
            marks: surface.marks,
            records,
        })
    }

    pub fn mesh(&self) -> viewer::Mesh<'_> {
        viewer::Mesh {
            points: &self.points,
            triangles: &self.triangles,
            marks: &self.marks,
        }
    }

    /// The grid without its mesh.
    pub fn grid(&self) -> Subject {
        Subject {
            side: self.side,
            samples: self.samples.clone(),
            ..Subject::default()
        }
    }

    /// The mesh without its grid, its grid edges, its shells and its text.
    pub fn meshed(&self) -> Subject {
        Subject {
            side: self.side,
            points: self.points.clone(),
            triangles: self.triangles.clone(),
            marks: self.marks.clone(),
            ..Subject::default()
        }
    }

    /// The mesh with its grid edges and its shells, without its grid and its text.
    pub fn listed(&self) -> Subject {
        Subject {
            edges: self.edges.clone(),
            records: self.records.clone(),
            ..self.meshed()
        }
    }

    /// The text alone.
    pub fn texted(&self) -> Subject {
        Subject {
            side: self.side,
            text: self.text.clone(),
            ..Subject::default()
        }
    }

    pub fn sample_count(&self) -> usize {
        self.samples.len()
    }

    pub fn point_count(&self) -> usize {
        self.marks.len()
    }

    pub fn triangle_count(&self) -> usize {
        self.triangles.len() / 3
    }

    /// The side and the seven lengths, then the seven lists, all as numbers of 32 bits.
    pub fn write(&self, to: &mut impl Write) -> Result<(), Failure> {
        let lengths = [
            self.samples.len(),
            self.points.len(),
            self.edges.len(),
            self.triangles.len(),
            self.marks.len(),
            self.records.len(),
            self.text.len(),
        ];
        put(to, std::iter::once(self.side))?;
        put(to, lengths.iter().map(|&length| length as u32))?;
        put(to, self.samples.iter().map(|&sample| sample.into()))?;
        put(to, self.points.iter().copied())?;
        put(to, self.edges.iter().copied())?;
        put(to, self.triangles.iter().copied())?;
        put(to, self.marks.iter().map(|&mark| mark.into()))?;
        put(to, self.records.iter().flat_map(words))?;
        put(to, self.text.iter().map(|&byte| byte.into()))
    }

    /// Reads what was written, number by number, so that no more memory is taken than the lists have.
    pub fn read(from: &mut impl Read) -> Result<Subject, Failure> {
        let (side, lengths) = head(from)?;
        let [count, points, edges, triangles, marks, records, text] = lengths;
        Ok(Subject {
            side,
            samples: samples(from, count)?,
            points: list(from, points, number)?,
            edges: list(from, edges, number)?,
            triangles: list(from, triangles, number)?,
            marks: list(from, marks, |from| Ok(number(from)? as u8))?,
            records: list(from, records, record)?,
            text: list(from, text, |from| Ok(number(from)? as u8))?,
        })
    }
}

/// Reads the side and the seven lengths, which come first.
pub fn head(from: &mut impl Read) -> Result<(u32, [usize; 7]), Failure> {
    let side = number(from)?;
    let mut lengths = [0; 7];
    for length in &mut lengths {
        *length = number(from)? as usize;
    }
    Ok((side, lengths))
}

/// Reads so many samples, which come next.
pub fn samples(from: &mut impl Read, count: usize) -> Result<Vec<u16>, Failure> {
    list(from, count, |from| Ok(number(from)? as u16))
}

/// A record as numbers of 32 bits, of which two are its volume.
fn words(shell: &Shell) -> [u32; 12] {
    [
        shell.low,
        shell.points,
        shell.triangles,
        shell.touches,
        shell.volume as u32,
        (shell.volume >> 32) as u32,
        shell.least_x,
        shell.greatest_x,
        shell.least_y,
        shell.greatest_y,
        shell.least_z,
        shell.greatest_z,
    ]
}

fn record(from: &mut impl Read) -> Result<Shell, Failure> {
    Ok(Shell {
        low: number(from)?,
        points: number(from)?,
        triangles: number(from)?,
        touches: number(from)?,
        volume: i64::from(number(from)?) | i64::from(number(from)?) << 32,
        least_x: number(from)?,
        greatest_x: number(from)?,
        least_y: number(from)?,
        greatest_y: number(from)?,
        least_z: number(from)?,
        greatest_z: number(from)?,
    })
}

fn put(to: &mut impl Write, numbers: impl Iterator<Item = u32>) -> Result<(), Failure> {
    for number in numbers {
        to.write_all(&number.to_le_bytes())?;
    }
    Ok(())
}

fn number(from: &mut impl Read) -> Result<u32, Failure> {
    let mut bytes = [0; 4];
    from.read_exact(&mut bytes)?;
    Ok(u32::from_le_bytes(bytes))
}

fn list<T, R: Read>(
    from: &mut R,
    length: usize,
    next: impl Fn(&mut R) -> Result<T, Failure>,
) -> Result<Vec<T>, Failure> {
    let mut list = Vec::with_capacity(length);
    for _ in 0..length {
        list.push(next(from)?);
    }
    Ok(list)
}
