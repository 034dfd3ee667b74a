//! A volume handed in layer by layer: a whole run, with rooms for what one of its calls can hand out.

use std::io::Read;
use std::iter::once;

use super::{agreed, Call};
use crate::subject::{self, Subject, GREY};
use crate::Failure;

#[derive(PartialEq)]
pub struct Layers {
    state: Vec<u32>,
    points: Vec<u32>,
    edges: Vec<u32>,
    marks: Vec<u8>,
    triangles: Vec<u32>,
    /// How many points and triangles the last call has handed out.
    counts: [u32; 2],
}

/// A call of the run.
#[derive(Clone, Copy)]
enum Step<'a> {
    Open(u32),
    Next(&'a [u16]),
    Close,
}

/// The calls of the run over a grid.
fn steps(on: &Subject) -> impl Iterator<Item = Step<'_>> {
    let layers = on.samples.chunks((on.side * on.side) as usize);
    once(Step::Open(on.side))
        .chain(layers.map(Step::Next))
        .chain(once(Step::Close))
}

impl Layers {
    /// The rooms that the header names for layers of so many samples a side.
    fn of(side: u32) -> Layers {
        let samples = (side * side) as usize;
        let points = viewer::layer_points(samples);
        Layers {
            state: vec![1; viewer::LAYERS_STATE],
            points: vec![1; 3 * points],
            edges: vec![1; points],
            marks: vec![1; points],
            triangles: vec![1; 3 * viewer::layer_triangles(samples)],
            counts: [0; 2],
        }
    }

    /// Makes a call of the library; answers the refusal's number.
    fn library_step(&mut self, step: Step<'_>) -> u32 {
        let (points, edges, marks) = (&mut self.points, &mut self.edges, &mut self.marks);
        match step {
            Step::Open(side) => viewer::layers_open([side; 3], GREY, &mut self.state),
            Step::Next(layer) => {
                let rooms = viewer::LayerRooms {
                    points,
                    edges,
                    marks,
                    triangles: &mut self.triangles,
                };
                let found = viewer::layers_next(layer, &mut self.state, rooms);
                self.counts = [found.points, found.triangles];
                found.number
            }
            Step::Close => {
                let found = viewer::layers_close(&mut self.state, points, edges, marks);
                self.counts = [found.points, 0];
                found.number
            }
        }
    }

    /// Makes a call of the reference; answers the refusal's number.
    fn reference_step(&mut self, step: Step<'_>) -> u32 {
        let (state, triangles) = (&mut self.state, &mut self.triangles);
        let (points, edges, marks) = (&mut self.points, &mut self.edges, &mut self.marks);
        match step {
            Step::Open(side) => reference::layers::open(side, side, side, GREY, state),
            Step::Next(layer) => {
                let found = reference::layers::next(layer, state, points, edges, marks, triangles);
                self.counts = [found.points, found.triangles];
                found.number
            }
            Step::Close => {
                let (number, points) = reference::layers::close(state, points, edges, marks);
                self.counts = [points, 0];
                number
            }
        }
    }
}

/// The first number that refuses, or 0.
fn first(mut numbers: impl Iterator<Item = u32>) -> u32 {
    numbers.find(|&number| number != 0).unwrap_or(0)
}

impl Call for Layers {
    const NAME: &'static str = "layers";
    const UNIT: &'static str = "sample";
    const FILTER: &'static str = "";

    fn lent(on: &Subject) -> Layers {
        Layers::of(on.side)
    }

    fn library(&mut self, on: &Subject) -> u32 {
        first(steps(on).map(|step| self.library_step(step)))
    }

    fn reference(&mut self, on: &Subject) -> u32 {
        first(steps(on).map(|step| self.reference_step(step)))
    }

    fn same(library: &Layers, reference: &Layers) -> bool {
        library == reference
    }

    /// After each call of the run, since the next one writes over what it hands out.
    fn compare(library: &mut Layers, reference: &mut Layers, on: &Subject) -> Result<(), Failure> {
        for step in steps(on) {
            let granted = library.library_step(step) == 0 && reference.reference_step(step) == 0;
            agreed(granted, library, reference)?;
        }
        Ok(())
    }

    /// A layer is read when the one before it was taken.
    fn once(from: &mut impl Read) -> Result<u32, Failure> {
        let (side, _) = subject::head(from)?;
        let mut rooms = Layers::of(side);
        let mut number = rooms.library_step(Step::Open(side));
        for _ in 0..side {
            let layer = subject::samples(from, (side * side) as usize)?;
            number = number.max(rooms.library_step(Step::Next(&layer)));
        }
        Ok(number.max(rooms.library_step(Step::Close)))
    }

    fn input(on: &Subject) -> Subject {
        on.grid()
    }

    fn units(on: &Subject) -> usize {
        on.sample_count()
    }

    fn runs(asked: usize) -> usize {
        asked
    }
}
