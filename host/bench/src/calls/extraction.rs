//! The extractor, with rooms for the most points and triangles that a grid can give.

use super::{greys::AtGrey, Call};
use crate::subject::{Subject, GREY};

#[derive(PartialEq)]
pub struct Extraction {
    points: Vec<u32>,
    edges: Vec<u32>,
    marks: Vec<u8>,
    triangles: Vec<u32>,
    work: Vec<u32>,
}

impl Extraction {
    pub fn rooms(&mut self) -> viewer::Rooms<'_> {
        viewer::Rooms {
            points: &mut self.points,
            edges: &mut self.edges,
            marks: &mut self.marks,
            triangles: &mut self.triangles,
            work: &mut self.work,
        }
    }
}

impl AtGrey for Extraction {
    const NAMES: &'static str = "extractions";
    const FILTER: &'static str = "";

    fn lent(on: &Subject) -> Extraction {
        let points = (3 * on.sample_count()).min(viewer::MOST_POINTS);
        let triangles = (5 * on.sample_count()).min(viewer::MOST_TRIANGLES);
        Extraction {
            points: vec![1; 3 * points],
            edges: vec![1; points],
            marks: vec![1; points],
            triangles: vec![1; 3 * triangles],
            work: vec![1; viewer::extract_work(on.sample_count())],
        }
    }

    fn library_at(&mut self, on: &Subject, grey: u16) -> u32 {
        viewer::extract([on.side; 3], grey, &on.samples, self.rooms()).number
    }

    fn reference_at(&mut self, on: &Subject, grey: u16) -> u32 {
        let found = reference::extract::extract(
            on.side,
            on.side,
            on.side,
            grey,
            &on.samples,
            &mut self.points,
            &mut self.edges,
            &mut self.marks,
            &mut self.triangles,
            &mut self.work,
        );
        found.number
    }
}

impl Call for Extraction {
    const NAME: &'static str = "extraction";
    const UNIT: &'static str = "sample";
    const FILTER: &'static str = "vtkFlyingEdges3D";

    fn lent(on: &Subject) -> Extraction {
        AtGrey::lent(on)
    }

    fn library(&mut self, on: &Subject) -> u32 {
        self.library_at(on, GREY)
    }

    fn reference(&mut self, on: &Subject) -> u32 {
        self.reference_at(on, GREY)
    }

    fn same(library: &Extraction, reference: &Extraction) -> bool {
        library == reference
    }

    fn input(on: &Subject) -> Subject {
        on.grid()
    }

    fn units(on: &Subject) -> usize {
        on.sample_count()
    }

    fn runs(asked: usize) -> usize {
        asked
    }
}
