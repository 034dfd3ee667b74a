//! The text of a mesh and its shells, with room for the longest. There is no call of the reference's beside it, but a plain loop that does no more than
//! format the lines.

use std::io::Write;

use super::Call;
use crate::subject::Subject;

pub struct Writing {
    room: Vec<u8>,
    length: usize,
}

/// The lines into a vector whose memory is there already.
fn formatted(on: &Subject, text: &mut Vec<u8>) -> std::io::Result<()> {
    let counts = (on.point_count(), on.triangle_count(), on.records.len());
    writeln!(text, "M\t{}\t{}\t{}", counts.0, counts.1, counts.2)?;
    let places = on.points.chunks_exact(3);
    for ((edge, place), mark) in on.edges.iter().zip(places).zip(&on.marks) {
        let [x, y, z] = [place[0], place[1], place[2]];
        writeln!(text, "V\t{edge}\t{x}\t{y}\t{z}\t{mark}")?;
    }
    for corners in on.triangles.chunks_exact(3) {
        let [a, b, c] = [corners[0], corners[1], corners[2]];
        writeln!(text, "T\t{a}\t{b}\t{c}")?;
    }
    for s in &on.records {
        write!(text, "S\t{}\t{}\t{}\t", s.low, s.points, s.triangles)?;
        write!(text, "{}\t{}\t", s.touches, s.volume)?;
        write!(text, "{}\t{}\t", s.least_x, s.greatest_x)?;
        write!(text, "{}\t{}\t", s.least_y, s.greatest_y)?;
        writeln!(text, "{}\t{}", s.least_z, s.greatest_z)?;
    }
    Ok(())
}

impl Call for Writing {
    const NAME: &'static str = "writing";
    const UNIT: &'static str = "byte";
    const FILTER: &'static str = "";

    fn lent(on: &Subject) -> Writing {
        let longest = viewer::text_room(on.point_count(), on.triangle_count(), on.records.len());
        Writing {
            room: vec![1; longest],
            length: 0,
        }
    }

    fn library(&mut self, on: &Subject) -> u32 {
        let written = viewer::write(on.mesh(), &on.edges, &on.records, &mut self.room);
        self.length = written.length;
        written.number
    }

    fn reference(&mut self, on: &Subject) -> u32 {
        self.room.clear();
        formatted(on, &mut self.room).expect("a vector takes any text");
        self.length = self.room.len();
        0
    }

    fn same(library: &Writing, reference: &Writing) -> bool {
        library.room[..library.length] == reference.room[..reference.length]
    }

    fn input(on: &Subject) -> Subject {
        on.listed()
    }

    fn units(on: &Subject) -> usize {
        on.text.len()
    }
}
