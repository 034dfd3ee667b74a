//! A volume layer by layer, with the state and the rooms of its run owned, and what the run hands out put together.

use crate::lent::{self, layer_points, layer_triangles, LayerRooms, LAYERS_STATE};
use crate::{Refusal, Surface};

/// A run over a volume whose z layers come one after the other. It holds two of them and no more: the one that is handed in, and the one before it.
#[derive(Clone, Debug)]
pub struct Layers {
    state: Vec<u32>,
    /// The rooms of one call. Its triangles are those of a [`Part`].
    rooms: Surface,
}

/// What one call of a run hands out, lent until the next call.
#[derive(Clone, Copy, PartialEq, Eq, Debug)]
pub struct Part<'a> {
    /// Three coordinates a point, in 1/256 of a voxel.
    pub points: &'a [u32],
    /// The number of each point's grid edge. They rise, in a part and from part to part.
    pub edges: &'a [u32],
    /// 1 for a point on an outer face of the grid, else 0.
    pub marks: &'a [u8],
    /// Three grid edges a triangle, each that of a corner's point, which may be handed out by the next call only.
    pub triangles: &'a [u32],
}

impl Layers {
    /// Opens a run at one grey value over a volume of these sides.
    pub fn open(sides: [u32; 3], grey: u16) -> Result<Layers, Refusal> {
        let mut state = vec![0; LAYERS_STATE];
        Refusal::check(lent::layers_open(sides, grey, &mut state))?;
        let [nx, ny, _] = sides.map(|side| side as usize);
        let rooms = Surface::blank(layer_points(nx * ny), layer_triangles(nx * ny));
        Ok(Layers { state, rooms })
    }

    /// Takes the next layer, in which sample (x, y) is layer[x + nx y]. Hands out the points of the layer below and the triangles of the cubes between the
    /// two; the first layer hands out nothing. After a refusal the run is where it was.
    pub fn next(&mut self, layer: &[u16]) -> Result<Part<'_>, Refusal> {
        let rooms = LayerRooms {
            points: &mut self.rooms.points,
            edges: &mut self.rooms.edges,
            marks: &mut self.rooms.marks,
            triangles: &mut self.rooms.triangles,
        };
        let found = lent::layers_next(layer, &mut self.state, rooms);
        Refusal::check(found.number)?;
        Ok(self.part(found.points, found.triangles))
    }

    /// Closes the run, whose layers were all taken, and hands out the points of the last one. After a refusal the run is where it was.
    pub fn close(&mut self) -> Result<Part<'_>, Refusal> {
        let Surface {
            points,
            edges,
            marks,
            ..
        } = &mut self.rooms;
        let found = lent::layers_close(&mut self.state, points, edges, marks);
        Refusal::check(found.number)?;
        Ok(self.part(found.points, 0))
    }

    /// So many points and triangles from the front of the rooms.
    fn part(&self, points: u32, triangles: u32) -> Part<'_> {
        let (points, triangles) = (points as usize, triangles as usize);
        Part {
            points: &self.rooms.points[..3 * points],
            edges: &self.rooms.edges[..points],
            marks: &self.rooms.marks[..points],
            triangles: &self.rooms.triangles[..3 * triangles],
        }
    }
}

/// The parts of a run, kept one after the other as they come.
#[derive(Clone, Debug, Default)]
pub struct Parts(Surface);

impl Parts {
    /// Keeps the next part.
    pub fn add(&mut self, part: Part<'_>) {
        self.0.points.extend(part.points);
        self.0.edges.extend(part.edges);
        self.0.marks.extend(part.marks);
        self.0.triangles.extend(part.triangles);
    }

    /// The parts of a closed run put together: the surface that [`Surface::extract`] gives of the whole volume. In its triangles each grid edge is replaced by
    /// the number of its point, which is the edge's rank. None if the point of a corner was not handed out, since parts are missing.
    pub fn put_together(self) -> Option<Surface> {
        let mut surface = self.0;
        for corner in &mut surface.triangles {
            *corner = surface.edges.binary_search(corner).ok()? as u32;
        }
        Some(surface)
    }
}
