//! A query by the summary of the samples, which is built beforehand, with the extractor's rooms.

use super::extraction::Extraction;
use super::greys::AtGrey;
use crate::subject::Subject;

#[derive(PartialEq)]
pub struct Query {
    summary: Vec<u16>,
    rooms: Extraction,
    /// How many blocks the last query looked at.
    blocks: u32,
}

impl AtGrey for Query {
    const NAMES: &'static str = "queries";
    const FILTER: &'static str = "tries";

    fn lent(on: &Subject) -> Query {
        let mut summary = vec![1; viewer::SUMMARY_LENGTH];
        let number = viewer::summary([on.side; 3], &on.samples, &mut summary);
        assert_eq!(number, 0, "a grid that has a mesh has a summary");
        Query {
            summary,
            rooms: AtGrey::lent(on),
            blocks: 0,
        }
    }

    fn library_at(&mut self, on: &Subject, grey: u16) -> u32 {
        let (summary, rooms) = (&self.summary, self.rooms.rooms());
        let found = viewer::query([on.side; 3], grey, &on.samples, summary, rooms);
        self.blocks = found.blocks;
        found.number
    }

    fn reference_at(&mut self, on: &Subject, grey: u16) -> u32 {
        let rooms = self.rooms.rooms();
        let found = reference::query::query(
            on.side,
            on.side,
            on.side,
            grey,
            &on.samples,
            &self.summary,
            rooms.points,
            rooms.edges,
            rooms.marks,
            rooms.triangles,
            rooms.work,
        );
        self.blocks = found.blocks;
        found.number
    }
}
