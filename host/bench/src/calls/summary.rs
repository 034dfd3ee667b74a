//! The summary of the samples, built.

use super::Call;
use crate::subject::Subject;

#[derive(PartialEq)]
pub struct Summary(Vec<u16>);

impl Call for Summary {
    const NAME: &'static str = "summary";
    const UNIT: &'static str = "sample";
    const FILTER: &'static str = "";

    fn lent(_on: &Subject) -> Summary {
        Summary(vec![1; viewer::SUMMARY_LENGTH])
    }

    fn library(&mut self, on: &Subject) -> u32 {
        viewer::summary([on.side; 3], &on.samples, &mut self.0)
    }

    fn reference(&mut self, on: &Subject) -> u32 {
        reference::summary::summary(on.side, on.side, on.side, &on.samples, &mut self.0)
    }

    fn same(library: &Summary, reference: &Summary) -> bool {
        library == reference
    }

    fn input(on: &Subject) -> Subject {
        on.grid()
    }

    fn units(on: &Subject) -> usize {
        on.sample_count()
    }
}
