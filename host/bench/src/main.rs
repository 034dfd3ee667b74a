//! Times the proved library on made-up castings at 64 samples a side, beside the plain reference and, where the program that `make bench` builds
//! for it is named, beside VTK's filters on one thread on the same volume. Every result is compared with the reference's before it is timed. The writer and
//! the reader of a mesh's text stand beside plain loops in place of the reference.
//!
//! bench [--runs N] [--vtk PROGRAM]. Fewer runs are sooner done and say less. `bench peak CALL` is what this program starts to measure memory.

mod balls;
mod calls;
mod casting;
mod chain;
mod memory;
mod subject;
mod table;
mod times;
mod tries;
mod vtk;

use calls::{
    curvature::Curvature, extraction::Extraction, greys::Thirty, layers::Layers, query::Query,
    reading::Reading, shells::Shells, smoothing::Smoothing, summary::Summary, writing::Writing,
    Call,
};

type Failure = Box<dyn std::error::Error>;

/// What the command line asks for.
struct Asked {
    /// So many runs of the extractor and of the layers, a thirtieth of that, rounded up, of the thirty queries, and a tenth of each other call.
    runs: usize,
    /// The program that times VTK's filters.
    vtk: Option<String>,
}

fn asked(mut words: impl Iterator<Item = String>) -> Result<Asked, Failure> {
    let mut asked = Asked {
        runs: 101,
        vtk: None,
    };
    while let Some(word) = words.next() {
        let value = words
            .next()
            .ok_or_else(|| format!("nothing after {word}"))?;
        match word.as_str() {
            "--runs" => asked.runs = value.parse::<usize>()?.max(1),
            "--vtk" => asked.vtk = Some(value),
            _ => return Err(format!("{word} is not known").into()),
        }
    }
    Ok(asked)
}

/// The peak of the one call that is named, for the process that asked.
fn peak(call: &str) -> Result<(), Failure> {
    match call {
        Extraction::NAME => memory::said::<Extraction>(),
        Layers::NAME => memory::said::<Layers>(),
        Summary::NAME => memory::said::<Summary>(),
        Thirty::<Query>::NAME => memory::said::<Thirty<Query>>(),
        Smoothing::NAME => memory::said::<Smoothing>(),
        Shells::NAME => memory::said::<Shells>(),
        Curvature::NAME => memory::said::<Curvature>(),
        Writing::NAME => memory::said::<Writing>(),
        Reading::NAME => memory::said::<Reading>(),
        _ => Err(format!("there is no call {call}").into()),
    }
}

fn main() -> Result<(), Failure> {
    let words: Vec<String> = std::env::args().skip(1).collect();
    if let [first, call] = words.as_slice() {
        if first == "peak" {
            return peak(call);
        }
    }
    let asked = asked(words.into_iter())?;
    table::print(&asked)?;
    chain::print(asked.runs)?;
    balls::print(asked.vtk.as_deref())
}
