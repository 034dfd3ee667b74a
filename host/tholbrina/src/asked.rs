//! The words of the command line.

use std::iter::Peekable;
use std::slice::Iter;

use viewer::{LEAST_SIDE, MOST_ROUNDS, MOST_SIDE, MOST_WEIGHT};

/// The end of a sentence about a wrong word.
const HELP: &str = "tholbrina --help says what can be written";

/// What --help says: short lines, one option a line, each a sentence of its own.
pub fn help() -> String {
    format!(
        "\
tholbrina lists the voids of a casting, a sentence a void.
Write tholbrina list VOLUME, and after it any of the options.
VOLUME is the name of a file, or - for standard input.
It is the text of a grid, or the text of a mesh as --mesh writes it.
If its size and grey value are given, it is plain samples instead.
A sample has 16 bits, the low byte first, and x goes fastest.
--size NX NY NZ gives the samples a side, each {LEAST_SIDE} to {MOST_SIDE}.
--grey G gives the grey value of the metal's surface, 0 to {most_grey}.
--layers reads plain samples layer by layer, and holds two layers at most.
--rounds K smooths the surface K times, 0 to {MOST_ROUNDS}.
--weight W says how far a round moves a point, 0 to {MOST_WEIGHT}.
--curvature adds how sharply each shell bends.
--mesh writes the mesh as text in place of the list.
To try many grey values on one casting, write tholbrina try VOLUME.
It says a sentence a value, and smooths nothing.
Its VOLUME is plain samples if --size is given, else the text of a grid.
--greys G1 G2 .. gives the grey values, each 0 to {most_grey}.
--from A gives the first of evenly spaced grey values instead, 0 to {most_grey}.
--to B gives the greatest that they may have, 0 to {most_grey}.
--step S gives how far each is above the one before, at least 1.
--help says these lines.
--version says the version.
",
        most_grey = u16::MAX,
    )
}

pub enum Asked {
    Help,
    Version,
    List(List),
    Try(Try),
}

pub struct List {
    /// The file, or - for standard input.
    pub volume: String,
    /// The sides and the grey value of a file of plain samples.
    pub plain: Option<([u32; 3], u16)>,
    /// Whether plain samples are taken layer by layer.
    pub layers: bool,
    pub rounds: Option<u32>,
    pub weight: Option<u32>,
    pub mesh: bool,
    pub curvature: bool,
}

pub struct Try {
    /// The file, or - for standard input.
    pub volume: String,
    /// The sides of a file of plain samples.
    pub size: Option<[u32; 3]>,
    /// The grey values, in the order in which they are tried.
    pub greys: Vec<u16>,
}

/// The words after the command.
type Rest<'a> = Peekable<Iter<'a, String>>;

fn number(name: &str, rest: &mut Rest<'_>) -> Result<u32, String> {
    let word = rest
        .next()
        .ok_or_else(|| format!("A number is missing after {name}; {HELP}."))?;
    word.parse()
        .map_err(|_| format!("{word} after {name} is not a whole number; {HELP}."))
}

fn size(name: &str, rest: &mut Rest<'_>) -> Result<[u32; 3], String> {
    Ok([
        number(name, rest)?,
        number(name, rest)?,
        number(name, rest)?,
    ])
}

fn grey(name: &str, number: u32) -> Result<u16, String> {
    u16::try_from(number)
        .map_err(|_| format!("{number} after {name} is above {}; {HELP}.", u16::MAX))
}

/// A word that is no option of the command: the volume, or --help or --version, which are asked for then.
fn other(command: &str, word: &str, volume: &mut Option<String>) -> Result<Option<Asked>, String> {
    match word {
        "--help" => return Ok(Some(Asked::Help)),
        "--version" => return Ok(Some(Asked::Version)),
        word if word.starts_with('-') && word != "-" => {
            return Err(format!("{word} is not an option of {command}; {HELP}."));
        }
        word if volume.is_some() => {
            return Err(format!("{word} is one volume too many; {HELP}."));
        }
        word => *volume = Some(word.to_string()),
    }
    Ok(None)
}

fn given(command: &str, volume: Option<String>) -> Result<String, String> {
    volume.ok_or_else(|| format!("The volume is missing after {command}; {HELP}."))
}

pub fn asked(words: &[String]) -> Result<Asked, String> {
    let mut rest = words.iter().peekable();
    match rest.next().map(String::as_str) {
        Some("list") => list(rest),
        Some("try") => tries(rest),
        Some("--help") => Ok(Asked::Help),
        Some("--version") => Ok(Asked::Version),
        Some(other) => Err(format!("{other} is not a command; {HELP}.")),
        None => Err(format!("A command is missing; {HELP}.")),
    }
}

/// The words after list.
fn list(mut rest: Rest<'_>) -> Result<Asked, String> {
    let (mut volume, mut sides, mut level) = (None, None, None);
    let mut list = List {
        volume: String::new(),
        plain: None,
        layers: false,
        rounds: None,
        weight: None,
        mesh: false,
        curvature: false,
    };
    while let Some(word) = rest.next() {
        match word.as_str() {
            "--size" => sides = Some(size(word, &mut rest)?),
            "--grey" => level = Some(number(word, &mut rest)?),
            "--layers" => list.layers = true,
            "--rounds" => list.rounds = Some(number(word, &mut rest)?),
            "--weight" => list.weight = Some(number(word, &mut rest)?),
            "--mesh" => list.mesh = true,
            "--curvature" => list.curvature = true,
            word => {
                if let Some(asked) = other("list", word, &mut volume)? {
                    return Ok(asked);
                }
            }
        }
    }
    list.volume = given("list", volume)?;
    list.plain = match (sides, level) {
        (None, None) => None,
        (Some(sides), Some(level)) => Some((sides, grey("--grey", level)?)),
        (Some(_), None) => return Err(format!("--size is there without --grey; {HELP}.")),
        (None, Some(_)) => return Err(format!("--grey is there without --size; {HELP}.")),
    };
    if list.layers && list.plain.is_none() {
        return Err(format!(
            "--layers is there without --size and --grey; {HELP}."
        ));
    }
    Ok(Asked::List(list))
}

/// The numbers of evenly spaced grey values, each with its option.
#[derive(Default)]
struct Spaced {
    from: Option<u32>,
    to: Option<u32>,
    step: Option<u32>,
}

impl Spaced {
    /// The first of the three options that is there, if one is.
    fn first(&self) -> Option<&'static str> {
        let options = [
            ("--from", self.from),
            ("--to", self.to),
            ("--step", self.step),
        ];
        let mut there = options.iter().filter(|(_, number)| number.is_some());
        there.next().map(|&(name, _)| name)
    }

    /// The grey values. No bound on their count is needed: there are 65,536 at most.
    fn greys(&self) -> Result<Vec<u16>, String> {
        let missing = |name: &str| {
            format!("--from, --to and --step go together, and {name} is missing; {HELP}.")
        };
        let from = grey("--from", self.from.ok_or_else(|| missing("--from"))?)?;
        let to = grey("--to", self.to.ok_or_else(|| missing("--to"))?)?;
        let step = self.step.ok_or_else(|| missing("--step"))?;
        if from > to {
            return Err(format!(
                "{from} after --from is above {to} after --to; {HELP}."
            ));
        }
        if step == 0 {
            return Err(format!("0 after --step is below 1; {HELP}."));
        }
        Ok((from..=to).step_by(step as usize).collect())
    }
}

/// The numbers that follow --greys, up to the next option or the volume -.
fn greys(name: &str, rest: &mut Rest<'_>) -> Result<Vec<u16>, String> {
    let mut greys = vec![grey(name, number(name, rest)?)?];
    while rest
        .peek()
        .is_some_and(|word| *word != "-" && !word.starts_with("--"))
    {
        greys.push(grey(name, number(name, rest)?)?);
    }
    Ok(greys)
}

/// The words after try.
fn tries(mut rest: Rest<'_>) -> Result<Asked, String> {
    let (mut volume, mut sides, mut listed) = (None, None, None);
    let mut spaced = Spaced::default();
    while let Some(word) = rest.next() {
        match word.as_str() {
            "--size" => sides = Some(size(word, &mut rest)?),
            "--greys" => listed = Some(greys(word, &mut rest)?),
            "--from" => spaced.from = Some(number(word, &mut rest)?),
            "--to" => spaced.to = Some(number(word, &mut rest)?),
            "--step" => spaced.step = Some(number(word, &mut rest)?),
            word => {
                if let Some(asked) = other("try", word, &mut volume)? {
                    return Ok(asked);
                }
            }
        }
    }
    let volume = given("try", volume)?;
    let greys = match (listed, spaced.first()) {
        (Some(_), Some(name)) => return Err(format!("--greys is there with {name}; {HELP}.")),
        (Some(greys), None) => greys,
        (None, Some(_)) => spaced.greys()?,
        (None, None) => return Err(format!("The grey values are missing after try; {HELP}.")),
    };
    Ok(Asked::Try(Try {
        volume,
        size: sides,
        greys,
    }))
}
