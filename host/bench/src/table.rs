//! The table: a row a casting and call.

use std::collections::BTreeMap;

use crate::calls::{
    curvature::Curvature,
    extraction::Extraction,
    greys::Thirty,
    layers::Layers,
    query::Query,
    reading::Reading,
    shells::Shells,
    smoothing::{Smoothing, ROUNDS},
    summary::Summary,
    writing::Writing,
    Call,
};
use crate::casting;
use crate::subject::{Subject, GREY};
use crate::tries::{self, Tries};
use crate::{memory, times, vtk, Asked, Failure};

/// A casting, and the same casting cut into blocks of 16 and of 32 samples a side.
struct Casting {
    voids: usize,
    at16: Vec<Subject>,
    at32: Vec<Subject>,
    whole: Subject,
}

impl Casting {
    fn new(voids: usize) -> Result<Casting, Failure> {
        let samples = casting::casting(voids);
        let cut = |side: usize| -> Result<Vec<Subject>, Failure> {
            casting::blocks(&samples, side)
                .into_iter()
                .map(|block| Subject::new(side as u32, block))
                .collect()
        };
        Ok(Casting {
            voids,
            at16: cut(16)?,
            at32: cut(32)?,
            whole: Subject::new(64, samples)?,
        })
    }
}

/// The columns: words to the left, numbers to the right.
fn line(words: [&str; 3], numbers: [&str; 6]) {
    let [voids, call, unit] = words;
    let [at16, at32, at64, reference, vtk, memory] = numbers;
    println!(
        "{voids:>5}  {call:<10}  {unit:<8}  {at16:>8}  {at32:>8}  {at64:>8}  {reference:>9}  {vtk:>6}  {memory:>6}"
    );
}

/// The nanoseconds a unit of the library's call over all blocks, each timed by itself.
fn cost<C: Call>(blocks: &[Subject], runs: usize) -> Result<f64, Failure> {
    let (mut time, mut units) = (0.0, 0);
    for block in blocks {
        let mut rooms = times::compared::<C>(block)?;
        time += times::library(&mut rooms, block, runs);
        units += C::units(block);
    }
    Ok(time / units as f64)
}

/// A row.
fn row<C: Call>(
    casting: &Casting,
    asked: &Asked,
    beside: &BTreeMap<String, f64>,
) -> Result<(), Failure> {
    let whole = &casting.whole;
    let at16 = cost::<C>(&casting.at16, asked.runs)?;
    let at32 = cost::<C>(&casting.at32, asked.runs)?;
    let mut rooms = times::compared::<C>(whole)?;
    let library = times::library(&mut rooms, whole, asked.runs);
    let reference = times::reference(&mut rooms, whole, asked.runs);
    let vtk = match beside.get(C::FILTER) {
        Some(time) => format!("{:.3}", library / time),
        None if C::FILTER.is_empty() => String::new(),
        None => "none".to_string(),
    };
    line(
        [&casting.voids.to_string(), C::NAME, C::UNIT],
        [
            &format!("{at16:.2}"),
            &format!("{at32:.2}"),
            &format!("{:.2}", library / C::units(whole) as f64),
            &format!("{:.3}", library / reference),
            &vtk,
            &format!("{:.1}", memory::peak::<C>(whole)?),
        ],
    );
    Ok(())
}

/// What is told of a casting after the table.
struct Told {
    /// The time of its layers as a part of the extraction's.
    layers: f64,
    tries: Tries,
    /// How many triangles VTK's mesh has, where its program is named.
    triangles: Option<f64>,
}

/// The nine rows of a casting.
fn rows(casting: &Casting, asked: &Asked) -> Result<Told, Failure> {
    let beside = match &asked.vtk {
        Some(program) => vtk::said(program, &casting.whole.samples, asked.runs)?,
        None => BTreeMap::new(),
    };
    row::<Extraction>(casting, asked, &beside)?;
    row::<Layers>(casting, asked, &beside)?;
    row::<Summary>(casting, asked, &beside)?;
    row::<Thirty<Query>>(casting, asked, &beside)?;
    row::<Smoothing>(casting, asked, &beside)?;
    row::<Shells>(casting, asked, &beside)?;
    row::<Curvature>(casting, asked, &beside)?;
    row::<Writing>(casting, asked, &beside)?;
    row::<Reading>(casting, asked, &beside)?;
    Ok(Told {
        layers: times::part::<Layers, Extraction>(&casting.whole, asked.runs)?,
        tries: Tries::new(casting.voids, &casting.whole, asked.runs)?,
        triangles: beside.get("triangles").copied(),
    })
}

/// What the columns are, in sentences.
fn explain(asked: &Asked) {
    if std::env::consts::ARCH != "x86_64" {
        println!(
            "The proved library's own module, compiled for {}: what is linked elsewhere is compiled for x86-64.",
            std::env::consts::ARCH
        );
    }
    println!(
        "The library on made-up castings of 64 samples a side at grey value {GREY}, on one thread. A time is the median of {} runs of extraction and of layers, {} of the thirty queries, {} of each other call.",
        Extraction::runs(asked.runs),
        Thirty::<Query>::runs(asked.runs),
        Smoothing::runs(asked.runs)
    );
    println!("Before it is timed every result is compared with the reference's, to the last bit. Layers is the casting handed in layer by layer, with rooms for one layer. Smoothing is {ROUNDS} rounds. Writing is the text of the mesh, and its reference a plain loop that only formats the lines.");
    println!("Reading is that text read back, and its reference a plain loop that only splits the lines and parses the numbers.");
    let greys: Vec<u16> = Thirty::<Query>::greys().collect();
    println!(
        "Summary is that of the samples, built, and as long for a block as for the whole casting. Queries are {} by one summary, which is built before, at grey values {} to {}; a sample counts once for each, and VTK's filter makes as many surfaces.",
        greys.len(),
        greys[0],
        greys[greys.len() - 1]
    );
    println!("At 16, 32, 64: nanoseconds per sample, triangle or byte, with the casting cut into blocks of 16 or 32 samples a side, and whole.");
    println!("Reference, VTK: the time of the whole casting as a part of the plain reference's, and of VTK's filter's on one thread.");
    println!("MB: peak memory of a process that makes the one call on the whole casting, less what it had at its start: the call's input, and its rooms in full. Layers are read one after the other, so that their input is one layer.");
}

/// The castings, the table, and how large VTK's meshes are.
pub fn print(asked: &Asked) -> Result<(), Failure> {
    explain(asked);
    let castings = [Casting::new(9)?, Casting::new(200)?, Casting::new(2_000)?];
    for Casting { voids, whole, .. } in &castings {
        let (points, triangles) = (whole.point_count(), whole.triangle_count());
        println!("{voids} voids: {points} points, {triangles} triangles.");
    }
    println!();
    line(
        ["voids", "call", "per"],
        ["at 16", "at 32", "at 64", "reference", "VTK", "MB"],
    );
    let (mut parts, mut tries, mut counts) = (Vec::new(), Vec::new(), Vec::new());
    for casting in &castings {
        let told = rows(casting, asked)?;
        parts.push(format!("{:.3} with {} voids", told.layers, casting.voids));
        tries.push(told.tries);
        counts.extend(told.triangles);
    }
    println!();
    println!(
        "Layer by layer the whole casting takes as a part of the extraction's time, both timed in turns: {}.",
        parts.join(", ")
    );
    tries::print(&tries);
    if let [few, more, most] = counts.as_slice() {
        println!(
            "VTK's filters: {}, {}, {}, {}. Those on a mesh take VTK's own, of {few}, {more} and {most} triangles.",
            Extraction::FILTER,
            Smoothing::FILTER,
            Shells::FILTER,
            Curvature::FILTER
        );
    }
    Ok(())
}
