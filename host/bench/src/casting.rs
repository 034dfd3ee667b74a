//! Made-up castings: metal with some noise and voids of ellipsoid shape, the same for the same number of voids.

const SIDE: usize = 64;

struct Seed(u64);

impl Seed {
    /// The next number, at least 0 and below 1.
    fn next(&mut self) -> f64 {
        self.0 ^= self.0 << 13;
        self.0 ^= self.0 >> 7;
        self.0 ^= self.0 << 17;
        (self.0 >> 11) as f64 / (1u64 << 53) as f64
    }
}

/// A casting of 64 samples a side with so many voids, fewer and larger or more and smaller.
pub fn casting(voids: usize) -> Vec<u16> {
    let mut seed = Seed(0x9e37_79b9_7f4a_7c15 ^ voids as u64);
    let mut samples: Vec<u16> = (0..SIDE * SIDE * SIDE)
        .map(|_| 900 + (100.0 * seed.next()) as u16)
        .collect();
    let size = 14.0 / (voids as f64).cbrt() + 0.6;
    for _ in 0..voids {
        let middle: [f64; 3] = std::array::from_fn(|_| 2.0 + (SIDE as f64 - 4.0) * seed.next());
        let half: [f64; 3] = std::array::from_fn(|_| size * (0.6 + 0.8 * seed.next()));
        hollow(&mut samples, middle, half, &mut seed);
    }
    samples
}

/// A casting cut into blocks of so many samples a side, a divisor of 64.
pub fn blocks(samples: &[u16], side: usize) -> Vec<Vec<u16>> {
    let many = SIDE / side;
    (0..many.pow(3))
        .map(|block| [block % many, block / many % many, block / (many * many)])
        .map(|at| block(samples, side, at.map(|place| side * place)))
        .collect()
}

/// The block whose first sample is at (x, y, z).
fn block(samples: &[u16], side: usize, [x, y, z]: [usize; 3]) -> Vec<u16> {
    (0..side * side)
        .flat_map(|row| {
            let start = x + SIDE * (y + row % side + SIDE * (z + row / side));
            samples[start..start + side].iter().copied()
        })
        .collect()
}

/// Takes the metal out of an ellipsoid, with a soft rim of a few samples.
fn hollow(samples: &mut [u16], middle: [f64; 3], half: [f64; 3], seed: &mut Seed) {
    let range = |axis: usize| {
        let reach = 1.2 * half[axis];
        let low = (middle[axis] - reach).floor().max(0.0) as usize;
        let high = (middle[axis] + reach).ceil().min(SIDE as f64 - 1.0) as usize;
        low..=high
    };
    for z in range(2) {
        for y in range(1) {
            for x in range(0) {
                let at = [x, y, z];
                let distance: f64 = (0..3)
                    .map(|axis| ((at[axis] as f64 - middle[axis]) / half[axis]).powi(2))
                    .sum();
                if distance < 1.4 {
                    let depth = ((distance - 0.8) / 0.6).max(0.0);
                    let value = 100.0 + 800.0 * depth + 50.0 * seed.next();
                    let sample = &mut samples[x + SIDE * (y + SIDE * z)];
                    *sample = (*sample).min(value as u16);
                }
            }
        }
    }
}
