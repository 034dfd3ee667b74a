//! A volume out of bytes: plain samples, or the text of a grid as the program for small grids has it, of any size.

use crate::{refused, sentence};
use viewer::{Refusal, LEAST_SIDE, MOST_SIDE};

pub struct Volume {
    pub sides: [u32; 3],
    pub samples: Vec<u16>,
}

/// What the text of a grid says beside its samples.
pub struct Settings {
    pub grey: u16,
    pub rounds: u32,
    pub weight: u32,
}

/// Whether a side is one that the library refuses.
fn too_far(sides: [u32; 3]) -> bool {
    sides
        .iter()
        .any(|side| !(LEAST_SIDE..=MOST_SIDE).contains(side))
}

/// Samples of two bytes each, the low byte first. A byte that is left over is no sample.
pub fn samples(bytes: &[u8]) -> impl Iterator<Item = u16> + '_ {
    bytes
        .chunks_exact(2)
        .map(|pair| u16::from_le_bytes([pair[0], pair[1]]))
}

/// How many bytes plain samples of these sides are, each of which the library takes.
pub fn size(sides: [u32; 3]) -> usize {
    2 * sides.map(|side| side as usize).iter().product::<usize>()
}

/// What a volume of another size has, in words, beside what it must have.
pub fn other_size(has: &str, sides: [u32; 3]) -> String {
    let [nx, ny, nz] = sides;
    let size = size(sides);
    format!("the volume has {has} bytes, and {nx} by {ny} by {nz} samples of two bytes are {size}")
}

pub fn plain(sides: [u32; 3], bytes: &[u8]) -> Result<Volume, String> {
    if !too_far(sides) && bytes.len() != size(sides) {
        let sizes = other_size(&bytes.len().to_string(), sides);
        return Err(sentence(Refusal::Samples, "", &sizes));
    }
    Ok(Volume {
        sides,
        samples: samples(bytes).collect(),
    })
}

/// A whole number of at most 65,535 with no sign and no needless zero.
fn number(field: &str) -> Option<u16> {
    let plain = field.bytes().all(|byte| byte.is_ascii_digit());
    let needless = field.len() > 1 && field.starts_with('0');
    field.parse().ok().filter(|_| plain && !needless)
}

fn numbers(line: &str) -> Option<Vec<u16>> {
    line.split('\t').map(number).collect()
}

fn malformed(line: usize) -> String {
    format!("{} It is line {line}.", refused(Refusal::Line))
}

pub fn text(bytes: &[u8]) -> Result<(Volume, Settings), String> {
    let text = String::from_utf8_lossy(bytes);
    let mut lines = text
        .split_inclusive('\n')
        .map(|line| line.strip_suffix('\n'));
    let mut next = |at: usize| lines.next().flatten().ok_or_else(|| malformed(at));
    let head = next(1)?;
    let fields = head
        .strip_prefix("G\t")
        .and_then(numbers)
        .filter(|fields| fields.len() == 6)
        .ok_or_else(|| malformed(1))?;
    let sides = [fields[0], fields[1], fields[2]].map(u32::from);
    let [nx, ny, nz] = sides.map(|side| side as usize);
    if too_far(sides) {
        return Err(refused(Refusal::Sides));
    }
    let mut samples = Vec::with_capacity(nx * ny * nz);
    for row in 0..ny * nz {
        let fields = numbers(next(row + 2)?)
            .filter(|fields| fields.len() == nx)
            .ok_or_else(|| malformed(row + 2))?;
        samples.extend(fields);
    }
    if lines.next().is_some() {
        return Err(malformed(ny * nz + 2));
    }
    let settings = Settings {
        grey: fields[3],
        rounds: fields[4].into(),
        weight: fields[5].into(),
    };
    Ok((Volume { sides, samples }, settings))
}
