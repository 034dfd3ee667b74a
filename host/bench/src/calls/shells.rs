//! The list of shells, with room for a record a point.

use super::Call;
use crate::subject::Subject;

pub struct Shells {
    numbers: Vec<u32>,
    records: Vec<viewer::Shell>,
    /// The reference's records, which have a type of their own: none until its first call.
    plain: Vec<reference::shells::Shell>,
    work: Vec<u32>,
}

/// What a record holds before a call.
pub const NONE: viewer::Shell = viewer::Shell {
    low: 1,
    points: 1,
    triangles: 1,
    touches: 1,
    volume: 1,
    least_x: 1,
    greatest_x: 1,
    least_y: 1,
    greatest_y: 1,
    least_z: 1,
    greatest_z: 1,
};

fn plain(shell: &viewer::Shell) -> reference::shells::Shell {
    reference::shells::Shell {
        low: shell.low,
        points: shell.points,
        triangles: shell.triangles,
        touches: shell.touches,
        volume: shell.volume,
        least: [shell.least_x, shell.least_y, shell.least_z],
        greatest: [shell.greatest_x, shell.greatest_y, shell.greatest_z],
    }
}

impl Call for Shells {
    const NAME: &'static str = "shells";
    const FILTER: &'static str = "vtkPolyDataConnectivityFilter";

    fn lent(on: &Subject) -> Shells {
        Shells {
            numbers: vec![1; on.point_count()],
            records: vec![NONE; on.point_count()],
            plain: Vec::new(),
            work: vec![1; viewer::shells_work(on.point_count())],
        }
    }

    fn library(&mut self, on: &Subject) -> u32 {
        viewer::shells(
            on.mesh(),
            &mut self.numbers,
            &mut self.records,
            &mut self.work,
        )
        .number
    }

    fn reference(&mut self, on: &Subject) -> u32 {
        self.plain.resize(on.point_count(), plain(&NONE));
        reference::shells::shells(
            &on.points,
            &on.triangles,
            &on.marks,
            &mut self.numbers,
            &mut self.plain,
            &mut self.work,
        )
        .number
    }

    fn same(library: &Shells, reference: &Shells) -> bool {
        library.numbers == reference.numbers
            && library.work == reference.work
            && library
                .records
                .iter()
                .map(plain)
                .eq(reference.plain.iter().copied())
    }
}
