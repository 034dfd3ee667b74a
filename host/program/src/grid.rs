use std::fmt::Write;

/// What an input of the program says.
#[derive(Clone, Debug)]
pub struct Grid {
    pub sides: [usize; 3],
    pub grey: u16,
    pub rounds: u16,
    pub weight: u16,
    pub samples: Vec<u16>,
}

impl Grid {
    /// A grid that is not smoothed, with the sample that `value` gives at each place.
    pub fn raw(sides: [usize; 3], grey: u16, mut value: impl FnMut([usize; 3]) -> u16) -> Grid {
        let [nx, ny, nz] = sides;
        let samples = (0..nx * ny * nz)
            .map(|s| value([s % nx, s / nx % ny, s / (nx * ny)]))
            .collect();
        Grid {
            sides,
            grey,
            rounds: 0,
            weight: 0,
            samples,
        }
    }

    /// The input that says it.
    pub fn text(&self) -> Vec<u8> {
        let [nx, ny, nz] = self.sides;
        let mut text = format!(
            "G\t{nx}\t{ny}\t{nz}\t{}\t{}\t{}\n",
            self.grey, self.rounds, self.weight
        );
        for row in self.samples.chunks(nx) {
            for (x, sample) in row.iter().enumerate() {
                let tab = if x == 0 { "" } else { "\t" };
                write!(text, "{tab}{sample}").expect("a string takes every number");
            }
            text.push('\n');
        }
        text.into_bytes()
    }
}
