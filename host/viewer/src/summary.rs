//! Many grey values tried on one volume, with the summary of its samples and the rooms of each query owned.

use crate::lent::{self, Extracted, SUMMARY_LENGTH};
use crate::{Refusal, Surface};

/// The summary of a grid's samples, which is kept beside them. It tells block by block where the surface can be at a grey value, so that triangles are
/// looked for only there.
#[derive(Clone, PartialEq, Eq, Debug)]
pub struct Summary {
    sides: [u32; 3],
    numbers: Vec<u16>,
}

impl Summary {
    /// The summary of a grid of these sides. Sample (x, y, z) is samples[x + nx (y + ny z)].
    pub fn of(sides: [u32; 3], samples: &[u16]) -> Result<Summary, Refusal> {
        let mut numbers = vec![0; SUMMARY_LENGTH];
        Refusal::check(lent::summary(sides, samples, &mut numbers))?;
        Ok(Summary { sides, numbers })
    }

    /// The surface at one grey value of the samples whose summary this is, which is that of [`Surface::extract`], and how many blocks were looked at. All
    /// samples and the whole summary are read each time, and any other samples are refused.
    pub fn surface(&self, grey: u16, samples: &[u16]) -> Result<(Surface, u32), Refusal> {
        let mut blocks = 0;
        let surface = Surface::filled(samples.len(), |rooms| {
            let found = lent::query(self.sides, grey, samples, &self.numbers, rooms);
            blocks = found.blocks;
            Extracted {
                number: found.number,
                points: found.points,
                triangles: found.triangles,
            }
        })?;
        Ok((surface, blocks))
    }
}
