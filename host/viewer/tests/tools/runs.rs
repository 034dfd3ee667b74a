//! Runs of layers on both sides: each call on equal rooms, and afterwards the same answer, the same state and the same content of every place of every room.
#![allow(dead_code)]

use viewer::{LayerRooms, Part, LAYERS_STATE};

use crate::grids::Grid;
use crate::tools::guard;

/// So many guard words at least stand before and behind each room that is lent.
const GUARDS: usize = 8;

/// A call of a run.
#[derive(Clone, Copy)]
pub enum Call<'a> {
    Open([u32; 3], u16),
    Next(&'a [u16]),
    Close,
}

impl std::fmt::Debug for Call<'_> {
    fn fmt(&self, f: &mut std::fmt::Formatter<'_>) -> std::fmt::Result {
        match self {
            Call::Open(sides, grey) => write!(f, "opening {sides:?} at grey value {grey}"),
            Call::Next(layer) => write!(f, "a layer of {} samples", layer.len()),
            Call::Close => write!(f, "closing"),
        }
    }
}

/// What a call answers. An opening has no counts, and a closing none of triangles: they are 0.
#[derive(Clone, Copy, PartialEq, Eq, Debug)]
pub struct Answer {
    pub number: u32,
    pub points: u32,
    pub triangles: u32,
}

/// An answer with zero counts: a refusal's, or that of a granted call which hands out nothing.
pub fn refused(number: u32) -> Answer {
    Answer {
        number,
        points: 0,
        triangles: 0,
    }
}

/// The lengths of the rooms that a call is lent.
#[derive(Clone, Copy, PartialEq, Eq, Debug)]
pub struct Lengths {
    pub state: usize,
    pub points: usize,
    pub edges: usize,
    pub marks: usize,
    pub triangles: usize,
}

impl Lengths {
    /// Rooms for so many points and triangles, and no more.
    pub fn exact(points: usize, triangles: usize) -> Lengths {
        Lengths {
            state: LAYERS_STATE,
            points: 3 * points,
            edges: points,
            marks: points,
            triangles: 3 * triangles,
        }
    }

    /// Rooms of the sizes that the wrapper and the C header name for layers of these sides.
    pub fn enough([nx, ny, _]: [u32; 3]) -> Lengths {
        let samples = (nx * ny) as usize;
        Lengths::exact(
            viewer::layer_points(samples),
            viewer::layer_triangles(samples),
        )
    }

    /// No room for anything that is handed out.
    pub fn none() -> Lengths {
        Lengths::exact(0, 0)
    }

    /// Rooms that hold just what they must, with each of them short by some in turn, and the number that this is refused with.
    pub fn short(self) -> Vec<(u32, Lengths)> {
        let mut short = Vec::new();
        for less in (1..=3).filter(|_| self.edges > 0) {
            let points = self.points - less;
            short.push((4, Lengths { points, ..self }));
        }
        if let Some(edges) = self.edges.checked_sub(1) {
            short.push((4, Lengths { edges, ..self }));
        }
        if let Some(marks) = self.marks.checked_sub(1) {
            short.push((4, Lengths { marks, ..self }));
        }
        for less in (1..=3).filter(|_| self.triangles > 0) {
            let triangles = self.triangles - less;
            short.push((5, Lengths { triangles, ..self }));
        }
        short
    }
}

/// The rooms of one side, each with guard words around the part that a call is lent.
#[derive(Clone, PartialEq, Eq)]
struct Rooms {
    state: Vec<u32>,
    points: Vec<u32>,
    edges: Vec<u32>,
    marks: Vec<u8>,
    triangles: Vec<u32>,
}

/// The part of a room that is lent.
fn lent<T>(room: &mut [T], length: usize) -> &mut [T] {
    &mut room[GUARDS..GUARDS + length]
}

impl Rooms {
    fn guarded(most: Lengths) -> Rooms {
        Rooms {
            state: guard(0xbeef_0007, most.state + 2 * GUARDS),
            points: guard(0xa5a5_0001, most.points + 2 * GUARDS),
            edges: guard(0x5a5a_0003, most.edges + 2 * GUARDS),
            marks: (0..most.marks + 2 * GUARDS)
                .map(|i| 0xc3 ^ i as u8)
                .collect(),
            triangles: guard(0xdead_0005, most.triangles + 2 * GUARDS),
        }
    }

    fn library(&mut self, call: Call<'_>, lengths: Lengths) -> Answer {
        let state = lent(&mut self.state, lengths.state);
        let points = lent(&mut self.points, lengths.points);
        let edges = lent(&mut self.edges, lengths.edges);
        let marks = lent(&mut self.marks, lengths.marks);
        match call {
            Call::Open(sides, grey) => refused(viewer::layers_open(sides, grey, state)),
            Call::Next(layer) => {
                let triangles = lent(&mut self.triangles, lengths.triangles);
                let rooms = LayerRooms {
                    points,
                    edges,
                    marks,
                    triangles,
                };
                let found = viewer::layers_next(layer, state, rooms);
                Answer {
                    number: found.number,
                    points: found.points,
                    triangles: found.triangles,
                }
            }
            Call::Close => {
                let found = viewer::layers_close(state, points, edges, marks);
                Answer {
                    number: found.number,
                    points: found.points,
                    triangles: 0,
                }
            }
        }
    }

    fn reference(&mut self, call: Call<'_>, lengths: Lengths) -> Answer {
        let state = lent(&mut self.state, lengths.state);
        let points = lent(&mut self.points, lengths.points);
        let edges = lent(&mut self.edges, lengths.edges);
        let marks = lent(&mut self.marks, lengths.marks);
        match call {
            Call::Open([nx, ny, nz], grey) => {
                refused(reference::layers::open(nx, ny, nz, grey, state))
            }
            Call::Next(layer) => {
                let triangles = lent(&mut self.triangles, lengths.triangles);
                let found = reference::layers::next(layer, state, points, edges, marks, triangles);
                Answer {
                    number: found.number,
                    points: found.points,
                    triangles: found.triangles,
                }
            }
            Call::Close => {
                let (number, points) = reference::layers::close(state, points, edges, marks);
                Answer {
                    number,
                    points,
                    triangles: 0,
                }
            }
        }
    }
}

/// A run on both sides, with equal rooms. All but the state is guarded anew before each call.
pub struct Run {
    library: Rooms,
    reference: Rooms,
    guarded: Rooms,
    /// How many points and triangles the last call has handed out.
    handed_out: (usize, usize),
}

impl Run {
    /// Rooms that lengths up to these are lent from.
    pub fn new(most: Lengths) -> Run {
        let guarded = Rooms::guarded(most);
        Run {
            library: guarded.clone(),
            reference: guarded.clone(),
            guarded,
            handed_out: (0, 0),
        }
    }

    /// A run that is opened over a grid, with enough rooms for each of its calls.
    pub fn opened(grid: &Grid) -> Run {
        let mut run = Run::new(Lengths::enough(grid.sides));
        let answer = run.same(Call::Open(grid.sides, grid.grey), Lengths::none());
        assert_eq!(answer.number, 0, "{grid:?}");
        run
    }

    pub fn state(&self) -> &[u32] {
        &self.library.state[GUARDS..GUARDS + LAYERS_STATE]
    }

    /// Changes the state, on both sides alike.
    pub fn change(&mut self, change: impl FnOnce(&mut [u32])) {
        let state = lent(&mut self.library.state, LAYERS_STATE);
        change(state);
        lent(&mut self.reference.state, LAYERS_STATE).copy_from_slice(state);
    }

    /// Puts this state in, on both sides.
    pub fn put(&mut self, state: &[u32]) {
        self.change(|room| room.copy_from_slice(state));
    }

    /// Guard values again wherever the last call has put something.
    fn guard(&mut self) {
        let (points, triangles) = self.handed_out;
        for rooms in [&mut self.library, &mut self.reference] {
            let (ends, guarded) = (3 * points + GUARDS, &self.guarded);
            rooms.points[..ends].copy_from_slice(&guarded.points[..ends]);
            let ends = points + GUARDS;
            rooms.edges[..ends].copy_from_slice(&guarded.edges[..ends]);
            rooms.marks[..ends].copy_from_slice(&guarded.marks[..ends]);
            let ends = 3 * triangles + GUARDS;
            rooms.triangles[..ends].copy_from_slice(&guarded.triangles[..ends]);
        }
    }

    /// One call on both sides, on equal rooms: the same answer, and the same content of every place of every room, guard words and state too.
    pub fn same(&mut self, call: Call<'_>, lengths: Lengths) -> Answer {
        self.guard();
        let found = self.library.library(call, lengths);
        let expected = self.reference.reference(call, lengths);
        if found != expected || self.library != self.reference {
            self.differ(found, expected, call, lengths);
        }
        self.handed_out = (found.points as usize, found.triangles as usize);
        found
    }

    /// Says where the sides differ.
    fn differ(&self, found: Answer, expected: Answer, call: Call<'_>, lengths: Lengths) -> ! {
        let (library, reference) = (&self.library, &self.reference);
        let at = format!("{call:?}, {lengths:?}");
        assert_eq!(found, expected, "{at}");
        assert_eq!(library.state, reference.state, "state, {at}");
        assert_eq!(library.points, reference.points, "points, {at}");
        assert_eq!(library.edges, reference.edges, "edges, {at}");
        assert_eq!(library.marks, reference.marks, "marks, {at}");
        assert_eq!(library.triangles, reference.triangles, "triangles, {at}");
        unreachable!("the sides differ");
    }

    /// A call is refused with this number: zero counts, and every room and the state as before it.
    pub fn refuses(&mut self, call: Call<'_>, lengths: Lengths, number: u32) {
        self.guard();
        let before = self.library.clone();
        let answer = self.same(call, lengths);
        assert_eq!(answer, refused(number), "{call:?}, {lengths:?}");
        assert!(self.library == before, "{call:?}, {lengths:?}");
    }

    /// What the last call has handed out.
    pub fn part(&self) -> Part<'_> {
        let (points, triangles) = self.handed_out;
        Part {
            points: &self.library.points[GUARDS..][..3 * points],
            edges: &self.library.edges[GUARDS..][..points],
            marks: &self.library.marks[GUARDS..][..points],
            triangles: &self.library.triangles[GUARDS..][..3 * triangles],
        }
    }
}

/// The calls of a whole run over a grid, after its opening.
pub fn calls(grid: &Grid) -> impl Iterator<Item = Call<'_>> {
    grid.layers().map(Call::Next).chain([Call::Close])
}
