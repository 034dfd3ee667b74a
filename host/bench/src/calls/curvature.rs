//! Corner areas and mean curvature.

use super::Call;
use crate::subject::Subject;

pub struct Curvature {
    areas: Vec<f64>,
    vectors: Vec<f64>,
}

fn bits(numbers: &[f64]) -> impl Iterator<Item = u64> + '_ {
    numbers.iter().map(|number| number.to_bits())
}

impl Call for Curvature {
    const NAME: &'static str = "curvature";
    const FILTER: &'static str = "vtkCurvatures";

    fn lent(on: &Subject) -> Curvature {
        Curvature {
            areas: vec![1.0; on.point_count()],
            vectors: vec![1.0; 3 * on.point_count()],
        }
    }

    fn library(&mut self, on: &Subject) -> u32 {
        viewer::curvature(on.mesh(), &mut self.areas, &mut self.vectors)
    }

    fn reference(&mut self, on: &Subject) -> u32 {
        reference::curvature::curvature(
            &on.points,
            &on.triangles,
            &on.marks,
            &mut self.areas,
            &mut self.vectors,
        )
    }

    fn same(library: &Curvature, reference: &Curvature) -> bool {
        bits(&library.areas).eq(bits(&reference.areas))
            && bits(&library.vectors).eq(bits(&reference.vectors))
    }
}
