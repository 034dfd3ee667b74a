//! Many grey values tried on one volume, by one summary of its samples.

use std::io::Read;

use crate::asked::Try;
use crate::opened::{bytes, is_mesh, source};
use crate::volume::{self, Volume};
use crate::{refused, said};
use viewer::{Refusal, Summary};

/// What is said of each grey value.
pub fn said(asked: &Try, standard_input: &mut dyn Read) -> Result<String, String> {
    let volume = open(asked, standard_input)?;
    let summary = Summary::of(volume.sides, &volume.samples).map_err(refused)?;
    let sentences: Result<Vec<String>, Refusal> = asked
        .greys
        .iter()
        .map(|&grey| sentence(&summary, grey, &volume.samples))
        .collect();
    Ok(said::tries(&sentences.map_err(refused)?))
}

/// The samples alone: what the text of a grid says of grey value, rounds and weight is not asked for.
fn open(asked: &Try, standard_input: &mut dyn Read) -> Result<Volume, String> {
    let name = &asked.volume;
    let bytes = bytes(name, &mut *source(name, standard_input)?)?;
    match asked.size {
        Some(sides) => volume::plain(sides, &bytes),
        None if is_mesh(&bytes) => Err(
            "The volume is the text of a mesh, which has no samples; give the volume that the mesh was made of.".to_string(),
        ),
        None => Ok(volume::text(&bytes)?.0),
    }
}

/// The sentence of one grey value. A surface that is too large is said to be, and is no reason to stop.
fn sentence(summary: &Summary, grey: u16, samples: &[u16]) -> Result<String, Refusal> {
    match summary.surface(grey, samples) {
        Ok((surface, blocks)) => {
            let records = surface.shells()?.records;
            let triangles = surface.triangles.len() / 3;
            Ok(said::tried(grey, &records, triangles, blocks))
        }
        Err(refusal @ (Refusal::Points | Refusal::Triangles)) => {
            Ok(said::refused_at(grey, refusal))
        }
        Err(refusal) => Err(refusal),
    }
}
