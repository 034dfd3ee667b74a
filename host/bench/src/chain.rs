//! A chain of points joined from its far end, the worst for a union that follows long paths.

use crate::calls::{shells::Shells, Call};
use crate::subject::Subject;
use crate::{times, Failure};

const POINTS: u32 = viewer::MOST_POINTS as u32;

fn chain() -> Subject {
    Subject {
        points: vec![7; 3 * POINTS as usize],
        triangles: (0..POINTS - 2)
            .rev()
            .flat_map(|i| [i + 2, i + 1, i])
            .collect(),
        marks: vec![0; POINTS as usize],
        ..Subject::default()
    }
}

pub fn print(runs: usize) -> Result<(), Failure> {
    let on = chain();
    let mut rooms = times::compared::<Shells>(&on)?;
    let library = times::library(&mut rooms, &on, runs);
    let reference = times::reference(&mut rooms, &on, runs);
    println!(
        "Shells of a chain of {POINTS} points joined from its far end: {:.2} nanoseconds per triangle, {:.3} of the reference's time.",
        library / Shells::units(&on) as f64,
        library / reference
    );
    Ok(())
}
