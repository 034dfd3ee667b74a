//! Castings with a known number of voids: the list, raw and smoothed, against the number that was cast, and its boxes against a flood fill over the samples.

#[path = "tools/castings.rs"]
mod castings;
#[path = "tools/half_edges.rs"]
mod half_edges;
mod tools;

use castings::{ellipsoid, lattice, SIDE};
use half_edges::HalfEdges;
use tools::{extents, Seed};
use viewer::{Shell, Surface};

const GREY: u16 = 500;

/// Metal with so many ellipsoids taken out, one in each cell of a lattice, apart from each other and from the outer faces.
fn casting(seed: &mut Seed, voids: usize) -> Vec<u16> {
    let mut samples = vec![1000u16; SIDE * SIDE * SIDE];
    let (length, middles) = lattice(voids, 2.0);
    for middle in middles {
        let half = std::array::from_fn(|_| length * (0.25 + seed.below(100) as f64 / 800.0));
        for s in ellipsoid(middle, half) {
            samples[s] = 100 + seed.below(200) as u16;
        }
    }
    samples
}

/// The least and the greatest sample along each axis.
type Extents = [[u32; 2]; 3];

/// The parts that the samples below the grey value fall into, from neighbour to neighbour along the axes, in the order of their lowest samples: where each lies.
fn parts_below(samples: &[u16]) -> Vec<Extents> {
    let mut seen: Vec<bool> = samples.iter().map(|&sample| sample >= GREY).collect();
    let mut parts = Vec::new();
    for start in 0..samples.len() {
        if !seen[start] {
            parts.push(part_from(start, &mut seen));
        }
    }
    parts
}

/// Sees every sample of the part that one sample is in.
fn part_from(start: usize, seen: &mut [bool]) -> Extents {
    seen[start] = true;
    let (mut part, mut open) = ([[u32::MAX, 0]; 3], vec![start]);
    while let Some(s) = open.pop() {
        let steps = [1, SIDE, SIDE * SIDE];
        for ([least, greatest], step) in part.iter_mut().zip(steps) {
            let at = s / step % SIDE;
            *least = (*least).min(at as u32);
            *greatest = (*greatest).max(at as u32);
            for next in [
                (at > 0).then(|| s - step),
                (at + 1 < SIDE).then(|| s + step),
            ] {
                if let Some(next) = next.filter(|&next| !seen[next]) {
                    seen[next] = true;
                    open.push(next);
                }
            }
        }
    }
    part
}

/// The box of a void of these samples holds them all, and goes no further than the samples next to them.
fn fits(raw: &Shell, part: &Extents) -> bool {
    (extents(raw).iter().zip(part)).all(|(&[least, greatest], &[first, last])| {
        (256 * (first - 1)..=256 * first).contains(&least)
            && (256 * last..=256 * (last + 1)).contains(&greatest)
    })
}

/// Smoothing moves points towards their neighbours, so a box may shrink and does not grow.
fn within(smoothed: &Shell, raw: &Shell) -> bool {
    (extents(smoothed).iter().zip(extents(raw)))
        .all(|(inner, outer)| outer[0] <= inner[0] && inner[1] <= outer[1])
}

#[test]
fn every_void_is_listed() {
    let mut seed = Seed::new(51);
    for voids in [1, 9, 50, 300] {
        let samples = casting(&mut seed, voids);
        let parts = parts_below(&samples);
        assert_eq!(parts.len(), voids);
        let raw = Surface::extract([SIDE as u32; 3], GREY, &samples).unwrap();
        let smoothed = raw.smooth(10, 128).unwrap();
        let lists = [&raw, &smoothed].map(|surface| {
            assert_eq!(
                (&surface.triangles, &surface.marks),
                (&raw.triangles, &raw.marks)
            );
            let shells = surface.shells().unwrap();
            assert_eq!(shells.records.len(), voids);
            assert!(shells
                .records
                .iter()
                .all(|s| s.touches == 0 && s.volume < 0));
            let half_edges = HalfEdges::of(&surface.triangles).unwrap();
            assert_eq!(half_edges.lone().next(), None);
            let turns = half_edges.turns(surface.edges.len());
            assert!(turns.iter().all(|&turns| turns == 1));
            shells.records
        });
        for ((raw, smoothed), part) in lists[0].iter().zip(&lists[1]).zip(&parts) {
            assert!(fits(raw, part), "{raw:?} {part:?}");
            assert!(within(smoothed, raw), "{smoothed:?} {raw:?}");
            assert_ne!(extents(smoothed), extents(raw));
        }
    }
}
