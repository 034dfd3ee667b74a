//! What the start of a fan leaves as it is, against the reference with document 01's fans: of an unsmoothed casting the points, their grid edges, marks and
//! shell numbers, and each shell's record but for its volume.

#[path = "tools/castings.rs"]
mod castings;
mod tools;

use castings::{lattice, SIDE};
use tools::{surface_of_document_01, Seed};
use viewer::{Shell, Surface};

const GREY: u16 = 500;

/// The volumes of the shells by document 01's fans and by the library's, after all else has been found the same.
fn volumes(sides: [u32; 3], samples: &[u16]) -> [Vec<i64>; 2] {
    let old = surface_of_document_01(sides, GREY, samples);
    let new = Surface::extract(sides, GREY, samples).unwrap();
    assert_eq!(new.points, old.points);
    assert_eq!(new.edges, old.edges);
    assert_eq!(new.marks, old.marks);
    assert_eq!(new.triangles.len(), old.triangles.len());
    let [old, new] = [old, new].map(|surface| surface.shells().unwrap());
    assert_eq!(new.numbers, old.numbers);
    assert_eq!(new.records.len(), old.records.len());
    for (new, old) in new.records.iter().zip(&old.records) {
        let volume = old.volume;
        assert_eq!(Shell { volume, ..*new }, *old);
    }
    [old, new].map(|shells| shells.records.iter().map(|shell| shell.volume).collect())
}

/// Two samples of a void at a diagonal of a cube face, in metal: between them the upper cube is case 246, the lower one 111.
#[test]
fn a_void_of_two_samples_at_a_diagonal() {
    let mut samples = vec![1000; 4 * 4 * 3];
    for [x, y] in [[1, 1], [2, 2]] {
        samples[x + 4 * (y + 4)] = 0;
    }
    assert_eq!(volumes([4, 4, 3], &samples), [[-41_943_040], [-67_108_864]]);
}

/// The steps of the walk that makes a void.
const STEPS: usize = 60;

/// Metal with so many voids, apart from each other and from the outer faces: each is a walk from the middle of its cell, whose steps go at most one sample
/// along each of two axes, so that many cross a cube face.
fn casting(seed: &mut Seed, voids: usize) -> Vec<u16> {
    let mut samples = vec![1000u16; SIDE * SIDE * SIDE];
    let (length, middles) = lattice(voids, 2.0);
    let reach = length as usize / 2 - 2;
    for middle in middles.map(|middle| middle.map(|at| at as usize)) {
        let mut at = middle;
        for _ in 0..STEPS {
            samples[at[0] + SIDE * (at[1] + SIDE * at[2])] = 100 + seed.below(200) as u16;
            let kept = seed.below(3) as usize;
            for axis in (0..3).filter(|&axis| axis != kept) {
                let next = at[axis] + seed.below(3) as usize - 1;
                at[axis] = next.clamp(middle[axis] - reach, middle[axis] + reach);
            }
        }
    }
    samples
}

/// The voids are as many as were cast; a walk may close round a sample, which is an island then.
#[test]
fn castings_with_voids_that_wind() {
    let mut seed = Seed::new(61);
    for voids in [1, 9, 50] {
        let samples = casting(&mut seed, voids);
        let [old, new] = volumes([SIDE as u32; 3], &samples);
        for volumes in [&old, &new] {
            assert_eq!(volumes.iter().filter(|&&volume| volume < 0).count(), voids);
        }
        assert_ne!(old, new);
    }
}

#[test]
fn noise() {
    let mut seed = Seed::new(62);
    for sides in [[2, 2, 2], [3, 2, 2], [5, 6, 7], [12, 3, 9], [16, 16, 16]] {
        for _ in 0..40 {
            let count: u32 = sides.iter().product();
            let samples: Vec<u16> = (0..count).map(|_| seed.below(1000) as u16).collect();
            volumes(sides, &samples);
        }
    }
}
