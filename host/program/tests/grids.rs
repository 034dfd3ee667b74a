//! Made-up grids against the reference.

use program::{refused_all, same, same_all, Grid, Seed};

const MOST_SAMPLES: usize = 512;

/// Every shape that the program takes.
fn shapes() -> Vec<[usize; 3]> {
    let mut shapes = Vec::new();
    for nx in 2..=64 {
        for ny in 2..=64 {
            for nz in 2..=64 {
                if nx * ny * nz <= MOST_SAMPLES {
                    shapes.push([nx, ny, nz]);
                }
            }
        }
    }
    shapes
}

/// Which samples stand on which side of the grey value.
#[derive(Clone, Copy, Debug)]
enum Kind {
    Noise,
    NearTheGreyValue,
    Checkerboard,
    MetalWithHoles,
    AllAlike,
}

const KINDS: [Kind; 5] = [
    Kind::Noise,
    Kind::NearTheGreyValue,
    Kind::Checkerboard,
    Kind::MetalWithHoles,
    Kind::AllAlike,
];

/// A number at least the grey value, or below it if there is one.
fn on_side(seed: &mut Seed, grey: u16, above: bool) -> u16 {
    if above || grey == 0 {
        grey + seed.below(usize::from(u16::MAX - grey) + 1) as u16
    } else {
        seed.below(usize::from(grey)) as u16
    }
}

fn sample(seed: &mut Seed, kind: Kind, grey: u16, [x, y, z]: [usize; 3]) -> u16 {
    match kind {
        Kind::Noise => seed.word(),
        Kind::NearTheGreyValue => seed.one_of(&[
            grey.saturating_sub(2),
            grey.saturating_sub(1),
            grey,
            grey.saturating_add(1),
        ]),
        Kind::Checkerboard => on_side(seed, grey, (x + y + z) % 2 == 0),
        Kind::MetalWithHoles => {
            let metal = seed.below(6) != 0;
            on_side(seed, grey, metal)
        }
        Kind::AllAlike => grey,
    }
}

fn made_up(seed: &mut Seed, sides: [usize; 3], kind: Kind, grey: u16) -> Grid {
    let raw = Grid::raw(sides, grey, |place| sample(seed, kind, grey, place));
    let rounds = [0, 1, 2, 100, seed.below(101) as u16];
    let weights = [0, 1, 128, 256, seed.below(257) as u16];
    Grid {
        rounds: seed.one_of(&rounds),
        weight: seed.one_of(&weights),
        ..raw
    }
}

fn texts(grids: Vec<Grid>) -> Vec<Vec<u8>> {
    grids.iter().map(Grid::text).collect()
}

#[test]
fn every_shape_of_512_samples() {
    let mut seed = Seed::new(1);
    let full: Vec<_> = shapes()
        .into_iter()
        .filter(|sides| sides.iter().product::<usize>() == MOST_SAMPLES)
        .collect();
    assert_eq!(full.len(), 25);
    let mut grids = Vec::new();
    for sides in full {
        for kind in [Kind::Noise, Kind::Checkerboard] {
            let grey = 1 + seed.below(65_535) as u16;
            grids.push(made_up(&mut seed, sides, kind, grey));
        }
    }
    same_all(&texts(grids));
}

#[test]
fn made_up_grids_of_any_shape() {
    let mut seed = Seed::new(2);
    let shapes = shapes();
    let grids = (0..300)
        .map(|turn| {
            let sides = seed.one_of(&shapes);
            let any = seed.word();
            let grey = seed.one_of(&[0, 1, 50, 32_768, 65_535, any, any]);
            made_up(&mut seed, sides, KINDS[turn % KINDS.len()], grey)
        })
        .collect();
    same_all(&texts(grids));
}

#[test]
fn the_least_and_the_greatest_grey_value() {
    let mut seed = Seed::new(3);
    let mut grids = Vec::new();
    for grey in [0, 65_535] {
        for kind in KINDS {
            for sides in [[2, 2, 2], [5, 4, 3], [8, 8, 8]] {
                grids.push(made_up(&mut seed, sides, kind, grey));
            }
        }
    }
    same_all(&texts(grids));
}

/// Every grid edge is crossed, so this is the greatest number of points. Every sample above is cut off alone, and is a shell by itself.
#[test]
fn the_checkerboard_of_eight_a_side() {
    for (rounds, weight) in [(0, 0), (100, 77)] {
        let grid = Grid {
            rounds,
            weight,
            ..Grid::raw(
                [8, 8, 8],
                50,
                |[x, y, z]| {
                    if (x + y + z) % 2 == 0 {
                        65_535
                    } else {
                        0
                    }
                },
            )
        };
        let answer = same(&grid.text());
        let first = answer.split(|&byte| byte == b'\n').next();
        assert_eq!(first, Some(&b"M\t1344\t1372\t256"[..]));
    }
}

/// Numbers of five digits everywhere, and two sides of two digits: three would be a thousand samples at least.
fn the_longest_grid() -> Grid {
    let mut seed = Seed::new(4);
    Grid {
        rounds: 100,
        weight: 256,
        ..Grid::raw([16, 16, 2], 65_535, |_| {
            seed.one_of(&[10_000, 40_000, 65_534, 65_535])
        })
    }
}

#[test]
fn the_longest_input_that_is_granted() {
    let input = the_longest_grid().text();
    assert_eq!(input.len(), 3_096);
    assert!(same(&input).starts_with(b"M\t"));
}

#[test]
fn a_byte_after_the_longest_input() {
    let cases = [b'\n', b'\t', b'0', 0].map(|byte| {
        let mut input = the_longest_grid().text();
        input.push(byte);
        (input, 12, 34)
    });
    refused_all(cases.into());
}

/// 3,111 bytes are all that the program reads.
#[test]
fn the_longest_input_and_as_many_bytes_as_the_program_reads() {
    let cases = [3_110, 3_111, 3_112].map(|length| {
        let mut input = the_longest_grid().text();
        input.resize(length, b'0');
        (input, 12, 34)
    });
    refused_all(cases.into());
}

/// A sample in each void of examples/small.txt, in the order of the list.
const SAMPLES: [[i64; 3]; 3] = [[2, 2, 2], [5, 5, 3], [5, 2, 5]];

#[test]
fn the_example_has_three_voids_inside_metal() {
    let example = concat!(env!("CARGO_MANIFEST_DIR"), "/../../examples/small.txt");
    let input = std::fs::read(example).expect("examples/small.txt can be read");
    let answer = String::from_utf8(same(&input)).expect("plain text");
    let shells: Vec<Vec<i64>> = answer
        .lines()
        .filter_map(|line| line.strip_prefix("S\t"))
        .map(|line| {
            line.split('\t')
                .map(|field| field.parse().unwrap())
                .collect()
        })
        .collect();
    assert_eq!(shells.len(), SAMPLES.len());
    for (shell, sample) in shells.iter().zip(SAMPLES) {
        assert_eq!(shell[3], 0, "a void touches no outer face");
        assert!(shell[4] < 0, "a void counts negative");
        let extents = shell[5..].chunks_exact(2);
        assert_eq!(extents.len(), 3, "a least and a greatest along each axis");
        for (extent, at) in extents.zip(sample) {
            assert!(extent[0] < 256 * at && 256 * at < extent[1], "{shell:?}");
        }
    }
}
