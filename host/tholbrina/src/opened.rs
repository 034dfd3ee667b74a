//! What a file or standard input holds, opened as a surface: the mesh of plain samples or of the text of a grid, or a mesh that is there as text.

use std::fs::File;
use std::io::Read;

use crate::asked::List;
use crate::volume::{self, Settings, Volume};
use crate::{layers, refused, sentence};
use viewer::{Refusal, Surface};

pub struct Opened {
    pub raw: Surface,
    pub rounds: u32,
    pub weight: u32,
}

/// The options go before what the text of a grid says of rounds and weight.
pub fn open(asked: &List, standard_input: &mut dyn Read) -> Result<Opened, String> {
    let name = &asked.volume;
    let from = &mut *source(name, standard_input)?;
    let opened = match asked.plain {
        Some((sides, grey)) if asked.layers => as_it_is(layers::extract(name, from, sides, grey)?),
        Some((sides, grey)) => {
            let volume = volume::plain(sides, &bytes(name, from)?)?;
            as_it_is(extracted(&volume, grey)?)
        }
        None => text(&bytes(name, from)?)?,
    };
    Ok(Opened {
        raw: opened.raw,
        rounds: asked.rounds.unwrap_or(opened.rounds),
        weight: asked.weight.unwrap_or(opened.weight),
    })
}

/// The file of this name, or standard input.
pub fn source<'a>(
    name: &str,
    standard_input: &'a mut dyn Read,
) -> Result<Box<dyn Read + 'a>, String> {
    if name == "-" {
        return Ok(Box::new(standard_input));
    }
    let file = File::open(name).map_err(|error| unread(name, error))?;
    Ok(Box::new(file))
}

/// What is said of a source that cannot be read.
pub fn unread(name: &str, error: std::io::Error) -> String {
    let source = if name == "-" { "Standard input" } else { name };
    format!("{source} cannot be read: {error}.")
}

/// All that a source holds.
pub fn bytes(name: &str, from: &mut dyn Read) -> Result<Vec<u8>, String> {
    let mut bytes = Vec::new();
    from.read_to_end(&mut bytes)
        .map_err(|error| unread(name, error))?;
    Ok(bytes)
}

/// A text whose first letter is M is that of a mesh.
pub fn is_mesh(text: &[u8]) -> bool {
    text.starts_with(b"M")
}

fn text(bytes: &[u8]) -> Result<Opened, String> {
    match is_mesh(bytes) {
        true => mesh(bytes),
        false => grid(bytes),
    }
}

/// A surface without rounds of its own.
fn as_it_is(raw: Surface) -> Opened {
    Opened {
        raw,
        rounds: 0,
        weight: 0,
    }
}

fn extracted(volume: &Volume, grey: u16) -> Result<Surface, String> {
    Surface::extract(volume.sides, grey, &volume.samples).map_err(refused)
}

fn grid(text: &[u8]) -> Result<Opened, String> {
    let (volume, settings) = volume::text(text)?;
    let Settings {
        grey,
        rounds,
        weight,
    } = settings;
    Ok(Opened {
        raw: extracted(&volume, grey)?,
        rounds,
        weight,
    })
}

/// The records of a text that is read are those of its mesh, so they need not be kept.
fn mesh(text: &[u8]) -> Result<Opened, String> {
    let (raw, _) = Surface::read(text).map_err(|(refusal, line)| mesh_refused(refusal, line))?;
    Ok(as_it_is(raw))
}

/// A refusal of a mesh's text, with the line where it has one.
fn mesh_refused(refusal: Refusal, line: u64) -> String {
    let at = match line {
        0 => String::new(),
        line => format!(" at line {line}"),
    };
    let help = match refusal {
        Refusal::MeshLine => "mend that line, or have the mesh sent again",
        Refusal::Points | Refusal::Triangles => {
            "the mesh is too large, so have the volume cut into parts and the mesh of each sent"
        }
        Refusal::Records => "no mesh has as many shells as line 1 says, so have it sent again",
        _ => "the mesh is not as it was written, so have it sent again",
    };
    sentence(refusal, &at, help)
}
