//! The grids that the extractor is tried on, whole and layer by layer.
#![allow(dead_code)]

use crate::tools::{checkerboard, count, noise, Seed};

#[derive(Clone, PartialEq, Eq)]
pub struct Grid {
    pub sides: [u32; 3],
    pub grey: u16,
    pub samples: Vec<u16>,
}

impl Grid {
    /// Its layers, in their order.
    pub fn layers(&self) -> impl Iterator<Item = &[u16]> {
        let [nx, ny, _] = self.sides;
        self.samples.chunks((nx * ny) as usize)
    }
}

impl std::fmt::Debug for Grid {
    fn fmt(&self, f: &mut std::fmt::Formatter<'_>) -> std::fmt::Result {
        write!(f, "sides {:?}, grey value {}", self.sides, self.grey)
    }
}

/// A grid in which some samples are 100 and all others are 0, at grey value 50.
pub fn above_where(sides: [u32; 3], is_above: impl Fn([u32; 3]) -> bool) -> Grid {
    let [nx, ny, _] = sides;
    let place = |s: u32| [s % nx, s / nx % ny, s / (nx * ny)];
    Grid {
        sides,
        grey: 50,
        samples: (0..count(sides) as u32)
            .map(|s| if is_above(place(s)) { 100 } else { 0 })
            .collect(),
    }
}

/// A grid in which one sample is 100 and all others are 0, at grey value 50.
pub fn one_above(sides: [u32; 3], above: [u32; 3]) -> Grid {
    above_where(sides, |at| at == above)
}

/// Document 01's figure of 3 by 3 by 3 samples.
pub fn figure() -> Grid {
    one_above([3, 3, 3], [1, 1, 1])
}

/// Document 01's example of 2 by 2 by 2 samples.
pub fn example() -> Grid {
    one_above([2, 2, 2], [0, 0, 0])
}

/// Each case as a grid of one cube, by rising number.
pub fn cubes() -> impl Iterator<Item = Grid> {
    (0..=255u32).map(|case| Grid {
        sides: [2, 2, 2],
        grey: 50,
        samples: (0..8)
            .map(|corner| if case >> corner & 1 == 1 { 100 } else { 0 })
            .collect(),
    })
}

/// Every three sides from 2 to a greatest.
pub fn shapes(most: u32) -> impl Iterator<Item = [u32; 3]> {
    let side = 2..=most;
    let (ys, zs) = (side.clone(), side.clone());
    side.flat_map(move |nx| ys.clone().map(move |ny| (nx, ny)))
        .flat_map(move |(nx, ny)| zs.clone().map(move |nz| [nx, ny, nz]))
}

/// A made-up grid with samples and grey value below a bound.
pub fn made_up(seed: &mut Seed, sides: [u32; 3], bound: u64) -> Grid {
    Grid {
        sides,
        samples: noise(seed, sides, bound),
        grey: seed.below(bound) as u16,
    }
}

/// Made-up grids of every shape up to nine.
pub fn up_to_nine() -> impl Iterator<Item = Grid> {
    let mut seed = Seed::new(1);
    shapes(9)
        .flat_map(|sides| [2, 3, 256, 65_536].map(|bound| (sides, bound)))
        .map(move |(sides, bound)| made_up(&mut seed, sides, bound))
}

/// Grids of two values, at the grey value and at the ends of the range.
pub fn plateaus() -> impl Iterator<Item = Grid> {
    let mut seed = Seed::new(2);
    let sides = [7, 6, 5];
    [[0, 65_535], [50, 51], [49, 50], [0, 1], [65_534, 65_535]]
        .into_iter()
        .flat_map(|values| [0, 1, 49, 50, 51, 65_534, 65_535].map(|grey| (values, grey)))
        .map(move |(values, grey)| Grid {
            sides,
            grey,
            samples: (0..count(sides))
                .map(|_| values[seed.below(2) as usize])
                .collect(),
        })
}

/// Grids of one value, which have no surface.
pub fn even() -> impl Iterator<Item = Grid> {
    let sides = [7, 6, 5];
    [0, 50, 65_535]
        .into_iter()
        .flat_map(|value| [0, 49, 50, 51, 65_535].map(|grey| (value, grey)))
        .map(move |(value, grey)| Grid {
            sides,
            grey,
            samples: vec![value; count(sides)],
        })
}

/// A checkerboard of these sides.
pub fn checkered(sides: [u32; 3]) -> Grid {
    Grid {
        sides,
        grey: 500,
        samples: checkerboard(sides),
    }
}

/// Checkerboards, each within the bounds.
pub fn checkerboards() -> impl Iterator<Item = Grid> {
    [
        [2, 2, 2],
        [3, 4, 5],
        [9, 8, 7],
        [64, 2, 3],
        [3, 64, 2],
        [2, 3, 64],
    ]
    .into_iter()
    .map(checkered)
}

/// Metal with made-up samples strewn in, of the largest sides.
pub fn large() -> impl Iterator<Item = Grid> {
    let mut seed = Seed::new(3);
    [
        [64, 64, 64],
        [64, 2, 64],
        [2, 2, 64],
        [64, 64, 2],
        [63, 64, 3],
    ]
    .into_iter()
    .map(move |sides| {
        let mut samples = vec![900; count(sides)];
        for _ in 0..count(sides) / 20 {
            let at = seed.below(count(sides) as u64) as usize;
            samples[at] = seed.below(1000) as u16;
        }
        Grid {
            sides,
            grey: 450,
            samples,
        }
    })
}

/// A small made-up grid of made-up sides.
pub fn small(seed: &mut Seed) -> Grid {
    let sides = [0; 3].map(|_| 2 + seed.below(5) as u32);
    Grid {
        sides,
        grey: 50,
        samples: noise(seed, sides, 100),
    }
}

/// Grids of 250,000 points and of one more. Above samples by themselves have six points each inside the grid, five on an outer face, four on an outer edge.
pub fn most_points() -> [Grid; 2] {
    let mut samples = vec![0; 64 * 64 * 64];
    let inside = (1..62).flat_map(|z| (1..63).flat_map(move |y| (1..63).map(move |x| (x, y, z))));
    for (x, y, z) in inside.filter(|(x, y, z)| (x + y + z) % 2 == 0).take(41_666) {
        samples[x + 64 * (y + 64 * z)] = 1;
    }
    [0, 31].map(|x| {
        let mut samples = samples.clone();
        samples[x + 64 * (31 + 64 * 63)] = 1;
        Grid {
            sides: [64; 3],
            grey: 1,
            samples,
        }
    })
}

/// A full grid with holes made up in its first samples. With more and more of them the triangles pass their limit while the points are still within theirs.
pub struct Holes(Vec<bool>);

impl Holes {
    pub fn new() -> Holes {
        let mut seed = Seed::new(6);
        Holes((0..64 * 64 * 64).map(|_| seed.below(100) < 30).collect())
    }

    /// The grid with holes below this sample.
    pub fn below(&self, first: usize) -> Grid {
        let hole = |s: usize| s < first && self.0[s];
        Grid {
            sides: [64; 3],
            grey: 500,
            samples: (0..self.0.len())
                .map(|s| if hole(s) { 0 } else { 1000 })
                .collect(),
        }
    }

    /// Some of the grids on the way past the limit.
    pub fn steps(&self) -> impl Iterator<Item = Grid> + '_ {
        (180_000..=196_000).step_by(1_000).map(|n| self.below(n))
    }

    /// The grid at the limit, which is granted, and the one with one hole more, which is refused.
    pub fn at_the_limit(&self) -> [Grid; 2] {
        let (mut granted, mut refused) = (180_000, 196_000);
        while refused - granted > 1 {
            let middle = (granted + refused) / 2;
            let Grid {
                sides,
                grey,
                samples,
            } = self.below(middle);
            match viewer::Surface::extract(sides, grey, &samples) {
                Ok(_) => granted = middle,
                Err(_) => refused = middle,
            }
        }
        [self.below(granted), self.below(refused)]
    }
}
