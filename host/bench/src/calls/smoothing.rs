//! Ten rounds of smoothing, half of the way to the neighbours' mean in each.

use super::Call;
use crate::subject::Subject;

pub const ROUNDS: u32 = 10;
pub const WEIGHT: u32 = 128;

#[derive(PartialEq)]
pub struct Smoothing {
    smoothed: Vec<u32>,
    work: Vec<u32>,
}

impl Call for Smoothing {
    const NAME: &'static str = "smoothing";
    const FILTER: &'static str = "vtkSmoothPolyDataFilter";

    fn lent(on: &Subject) -> Smoothing {
        Smoothing {
            smoothed: vec![1; 3 * on.point_count()],
            work: vec![1; viewer::smooth_work(on.point_count(), on.triangle_count())],
        }
    }

    fn library(&mut self, on: &Subject) -> u32 {
        viewer::smooth(
            on.mesh(),
            ROUNDS,
            WEIGHT,
            &mut self.smoothed,
            &mut self.work,
        )
    }

    fn reference(&mut self, on: &Subject) -> u32 {
        reference::smooth::smooth(
            &on.points,
            &on.triangles,
            &on.marks,
            ROUNDS,
            WEIGHT,
            &mut self.smoothed,
            &mut self.work,
        )
    }

    fn same(library: &Smoothing, reference: &Smoothing) -> bool {
        library == reference
    }
}
