//! The calls with their rooms owned: a grid or the text of a mesh goes in, and a surface, its shells, its text and its answers come out. Nothing is checked
//! here that the library checks itself.

use crate::lent::{self, Extracted, Mesh, Rooms, Shell, MOST_POINTS, MOST_SIDE, MOST_TRIANGLES};
use crate::lent::{extract_work, read_work, shells_work, smooth_work, text_room};
use crate::Refusal;

/// A surface: its points, the grid edge and the mark of each, and its triangles.
#[derive(Clone, PartialEq, Eq, Debug, Default)]
pub struct Surface {
    /// Three coordinates a point, in 1/256 of a voxel.
    pub points: Vec<u32>,
    /// The number of each point's grid edge.
    pub edges: Vec<u32>,
    /// 1 for a point on an outer face of the grid, else 0.
    pub marks: Vec<u8>,
    /// Three point numbers a triangle.
    pub triangles: Vec<u32>,
}

/// The shells of a mesh, numbered from 0 in rising order of lowest point.
#[derive(Clone, PartialEq, Eq, Debug)]
pub struct Shells {
    /// Each point's shell number.
    pub numbers: Vec<u32>,
    /// A record a shell; record n is shell n.
    pub records: Vec<Shell>,
}

/// A point's answer. An area is in squares of 1/256 of a voxel; a vector's length is the mean curvature per 1/256 of a voxel, so 256 times that is
/// per voxel.
#[derive(Clone, Copy, PartialEq, Debug)]
pub enum Answer {
    /// A marked point, with its area.
    Open(f64),
    /// A point whose area is 0.
    Flat,
    /// Any other point, with its area and its mean curvature vector.
    Bent(f64, [f64; 3]),
}

impl Surface {
    /// The surface of a grid at one grey value. Sample (x, y, z) is samples[x + nx (y + ny z)].
    pub fn extract(sides: [u32; 3], grey: u16, samples: &[u16]) -> Result<Surface, Refusal> {
        Surface::filled(samples.len(), |rooms| {
            lent::extract(sides, grey, samples, rooms)
        })
    }

    /// The surface that a call leaves in rooms for all that a grid of so many samples can give.
    pub(crate) fn filled(
        samples: usize,
        call: impl FnOnce(Rooms<'_>) -> Extracted,
    ) -> Result<Surface, Refusal> {
        // A grid of more samples is refused whatever its rooms are.
        let count = samples.min(MOST_SIDE.pow(3) as usize);
        let most_points = (3 * count).min(MOST_POINTS);
        let most_triangles = (5 * count).min(MOST_TRIANGLES);
        let mut surface = Surface::blank(most_points, most_triangles);
        let mut work = vec![0; extract_work(count)];
        let found = call(surface.rooms(&mut work));
        Refusal::check(found.number)?;
        surface.points.truncate(3 * found.points as usize);
        surface.edges.truncate(found.points as usize);
        surface.marks.truncate(found.points as usize);
        surface.triangles.truncate(3 * found.triangles as usize);
        Ok(surface)
    }

    /// The surface of a mesh's text, as [`Surface::write`] writes it, and the records of its shells. What is written again with them is the same text.
    /// A refusal comes with the line of the text that [`Refusal::MeshLine`] speaks of, counted from 1, which is 0 with every other refusal.
    pub fn read(text: &[u8]) -> Result<(Surface, Vec<Shell>), (Refusal, u64)> {
        let counts = lent::read_counts(text);
        // A text of more is refused whatever its rooms are: no mesh has more shells than points.
        let points = (counts.points as usize).min(MOST_POINTS);
        let triangles = (counts.triangles as usize).min(MOST_TRIANGLES);
        let shells = (counts.shells as usize).min(MOST_POINTS);
        let mut surface = Surface::blank(points, triangles);
        let mut records = vec![Shell::default(); shells];
        let mut work = vec![0; read_work(points, triangles)];
        let found = lent::read(text, surface.rooms(&mut work), &mut records);
        Refusal::check(found.number).map_err(|refusal| (refusal, found.line))?;
        Ok((surface, records))
    }

    /// A surface of so many points and triangles, all 0, to be filled.
    pub(crate) fn blank(points: usize, triangles: usize) -> Surface {
        Surface {
            points: vec![0; 3 * points],
            edges: vec![0; points],
            marks: vec![0; points],
            triangles: vec![0; 3 * triangles],
        }
    }

    /// Its lists as the rooms of a call that fills them.
    fn rooms<'a>(&'a mut self, work: &'a mut [u32]) -> Rooms<'a> {
        Rooms {
            points: &mut self.points,
            edges: &mut self.edges,
            marks: &mut self.marks,
            triangles: &mut self.triangles,
            work,
        }
    }

    /// The mesh, lent.
    pub fn mesh(&self) -> Mesh<'_> {
        Mesh {
            points: &self.points,
            triangles: &self.triangles,
            marks: &self.marks,
        }
    }

    /// The same surface with its points smoothed.
    pub fn smooth(&self, rounds: u32, weight: u32) -> Result<Surface, Refusal> {
        Ok(Surface {
            points: self.mesh().smooth(rounds, weight)?,
            edges: self.edges.clone(),
            marks: self.marks.clone(),
            triangles: self.triangles.clone(),
        })
    }

    /// Its shells.
    pub fn shells(&self) -> Result<Shells, Refusal> {
        self.mesh().shells()
    }

    /// Its text with these records, one a shell, as lines M, V, T and S. What the records hold is written as it stands.
    pub fn write(&self, records: &[Shell]) -> Result<Vec<u8>, Refusal> {
        let (points, triangles) = self.mesh().counts();
        let shells = records.len().min(MOST_POINTS);
        let mut text = vec![0; text_room(points, triangles, shells)];
        let written = lent::write(self.mesh(), &self.edges, records, &mut text);
        Refusal::check(written.number)?;
        text.truncate(written.length);
        Ok(text)
    }

    /// The answer of each point.
    pub fn answers(&self) -> Result<Vec<Answer>, Refusal> {
        self.mesh().answers()
    }
}

impl Mesh<'_> {
    /// V and T, or the most there may be: a mesh of more is refused whatever its rooms are.
    fn counts(&self) -> (usize, usize) {
        let points = self.marks.len().min(MOST_POINTS);
        (points, (self.triangles.len() / 3).min(MOST_TRIANGLES))
    }

    /// Its points after rounds of smoothing.
    pub fn smooth(self, rounds: u32, weight: u32) -> Result<Vec<u32>, Refusal> {
        let (points, triangles) = self.counts();
        let mut smoothed = vec![0; 3 * points];
        let mut work = vec![0; smooth_work(points, triangles)];
        let number = lent::smooth(self, rounds, weight, &mut smoothed, &mut work);
        Refusal::check(number)?;
        Ok(smoothed)
    }

    /// Its shells.
    pub fn shells(self) -> Result<Shells, Refusal> {
        let (points, _) = self.counts();
        let mut numbers = vec![0; points];
        let mut records = vec![Shell::default(); points];
        let mut work = vec![0; shells_work(points)];
        let listed = lent::shells(self, &mut numbers, &mut records, &mut work);
        Refusal::check(listed.number)?;
        records.truncate(listed.shells as usize);
        Ok(Shells { numbers, records })
    }

    /// The answer of each point.
    pub fn answers(self) -> Result<Vec<Answer>, Refusal> {
        let (points, _) = self.counts();
        let (mut areas, mut vectors) = (vec![0.0; points], vec![0.0; 3 * points]);
        Refusal::check(lent::curvature(self, &mut areas, &mut vectors))?;
        (0..points as u32)
            .map(|point| read_back(self.marks, &areas, &vectors, point))
            .collect()
    }
}

fn read_back(marks: &[u8], areas: &[f64], vectors: &[f64], point: u32) -> Result<Answer, Refusal> {
    let (mut kind, mut values) = (0, [0.0; 4]);
    let number = lent::answer(marks, areas, vectors, point, &mut kind, &mut values);
    Refusal::check(number)?;
    let [area, x, y, z] = values;
    Ok(match kind {
        0 => Answer::Open(area),
        1 => Answer::Flat,
        _ => Answer::Bent(area, [x, y, z]),
    })
}
