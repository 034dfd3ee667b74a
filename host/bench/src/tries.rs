//! Thirty grey values tried by one summary: how long that takes beside thirty extractions, and where the time of a query goes.

use crate::calls::extraction::Extraction;
use crate::calls::greys::{AtZero, Thirty};
use crate::calls::query::Query;
use crate::subject::Subject;
use crate::{times, Failure};

/// What is told of the queries of one casting.
pub struct Tries {
    voids: usize,
    /// The time of thirty queries as a part of that of thirty extractions.
    part: f64,
    /// The nanoseconds of a query: one of the thirty, and one at grey value 0.
    query: f64,
    empty: f64,
    /// The nanoseconds of an extraction at grey value 0.
    plain: f64,
}

impl Tries {
    pub fn new(voids: usize, on: &Subject, runs: usize) -> Result<Tries, Failure> {
        let part = times::part::<Thirty<Query>, Thirty<Extraction>>(on, runs)?;
        let mut thirty = times::compared::<Thirty<Query>>(on)?;
        let mut empty = times::compared::<AtZero<Query>>(on)?;
        let mut plain = times::compared::<AtZero<Extraction>>(on)?;
        let [thirty, empty, plain] = times::in_turns(
            runs,
            [
                &mut |each| times::library(&mut thirty, on, each),
                &mut |each| times::library(&mut empty, on, each),
                &mut |each| times::library(&mut plain, on, each),
            ],
        );
        let count = Thirty::<Query>::greys().count();
        Ok(Tries {
            voids,
            part,
            query: thirty / count as f64,
            empty,
            plain,
        })
    }

    /// Where a query's time goes, in milliseconds.
    fn parts(&self) -> String {
        let check = self.empty - self.plain;
        let mesh = self.query / self.part;
        let steps = self.query - check - mesh;
        let [query, check, steps, mesh] = [self.query, check, steps, mesh].map(|time| time / 1e6);
        format!(
            "A query with {} voids takes {query:.3} milliseconds: the check {check:.3}, the steps {steps:.3}, the mesh {mesh:.3}.",
            self.voids
        )
    }
}

/// All castings, in sentences.
pub fn print(all: &[Tries]) {
    let parts: Vec<String> = all
        .iter()
        .map(|tries| format!("{:.3} with {} voids", tries.part, tries.voids))
        .collect();
    println!(
        "Thirty queries by one summary take as a part of the time of thirty extractions at the same grey values, both timed in turns: {}.",
        parts.join(", ")
    );
    for tries in all {
        println!("{}", tries.parts());
    }
    println!("This is told from outside. The check is what a query at grey value 0, which is the check, one step and an empty mesh, takes beyond an extraction there. The mesh is taken as an extraction at the same grey values, and the steps are what is left.");
}
