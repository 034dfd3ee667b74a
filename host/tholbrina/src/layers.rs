//! Plain samples taken layer by layer, as they are read. Two layers are held at most: the one that is read, row by row, and the one before it, which the
//! library keeps.

use std::io::Read;

use crate::opened::unread;
use crate::volume::{other_size, samples, size};
use crate::{refused, sentence};
use viewer::{Layers, Parts, Refusal, Surface};

/// The surface of a source of plain samples.
pub fn extract(
    name: &str,
    from: &mut dyn Read,
    sides: [u32; 3],
    grey: u16,
) -> Result<Surface, String> {
    let mut layers = Layers::open(sides, grey).map_err(refused)?;
    let (mut parts, mut layer, mut bytes) = (Parts::default(), Vec::new(), 0);
    loop {
        let more = read(from, sides, &mut layer).map_err(|error| unread(name, error))?;
        if more == 0 {
            break;
        }
        bytes += more;
        let part = layers.next(&layer);
        parts.add(part.map_err(|refusal| layer_refused(refusal, sides, bytes))?);
    }
    let part = layers.close();
    parts.add(part.map_err(|refusal| layer_refused(refusal, sides, bytes))?);
    let surface = parts.put_together();
    Ok(surface.expect("a closed run hands out every point"))
}

/// Reads a layer, or what there is left of one; answers how many bytes there are.
fn read(
    from: &mut dyn Read,
    [nx, ny, _]: [u32; 3],
    layer: &mut Vec<u16>,
) -> std::io::Result<usize> {
    layer.clear();
    let (mut row, mut bytes) = (Vec::new(), 0);
    for _ in 0..ny {
        row.clear();
        bytes += (&mut *from).take(2 * u64::from(nx)).read_to_end(&mut row)?;
        layer.extend(samples(&row));
    }
    Ok(bytes)
}

/// The refusal of a layer or of the closing, where so many bytes were read. A volume that goes on after its last layer is not read to its end.
fn layer_refused(refusal: Refusal, sides: [u32; 3], bytes: usize) -> String {
    match refusal {
        Refusal::Layer | Refusal::Closing => {
            let has = match size(sides) {
                all if bytes > all => format!("more than {all}"),
                _ => bytes.to_string(),
            };
            sentence(refusal, "", &other_size(&has, sides))
        }
        other => refused(other),
    }
}
