//! What the command line tool does: open a volume or a mesh, call the proved library, and say the list, or what each of many grey values gives.

mod asked;
mod layers;
mod opened;
mod said;
mod tries;
mod volume;

use std::io::Read;

use asked::{Asked, List};
use opened::Opened;
use viewer::Refusal;

/// What to write to standard output, or the one sentence that says what is wrong and what to do.
pub fn run(words: &[String], standard_input: &mut dyn Read) -> Result<String, String> {
    match asked::asked(words)? {
        Asked::Help => Ok(asked::help()),
        Asked::Version => Ok(format!("tholbrina {}\n", env!("THOLBRINA_VERSION"))),
        Asked::List(asked) => list(&asked, standard_input),
        Asked::Try(asked) => tries::said(&asked, standard_input),
    }
}

/// The list, or the mesh as text.
fn list(asked: &List, standard_input: &mut dyn Read) -> Result<String, String> {
    let Opened {
        raw,
        rounds,
        weight,
    } = opened::open(asked, standard_input)?;
    let surface = raw.smooth(rounds, weight).map_err(refused)?;
    let shells = surface.shells().map_err(refused)?;
    if asked.mesh {
        let text = surface.write(&shells.records).map_err(refused)?;
        return Ok(String::from_utf8(text).expect("the text of a mesh is plain"));
    }
    let answers = match asked.curvature {
        true => Some(surface.answers().map_err(refused)?),
        false => None,
    };
    Ok(said::list(&shells, answers.as_deref()))
}

/// The refusal of a volume, or of a call on its surface.
fn refused(refusal: Refusal) -> String {
    let help = match refusal {
        Refusal::Sides => "cut the volume into parts of 2 to 64 samples a side",
        Refusal::Samples => "give the size that the file was written with",
        Refusal::Points | Refusal::Triangles => {
            "the volume is too noisy at this grey value, so choose another or cut it into parts"
        }
        Refusal::Settings => "give at most 100 rounds and a weight of at most 256",
        Refusal::Line => "mend that line of the text",
        _ => "this is a fault of the tool, so report it with the volume",
    };
    sentence(refusal, "", help)
}

/// A refusal's number, where it was met, its words, and what to do.
fn sentence(refusal: Refusal, at: &str, help: &str) -> String {
    let (number, words) = (refusal.number(), refusal.words());
    format!("Refused with number {number}{at}: {words}; {help}.")
}
