//! The tool as a listener has it: sentences, errors and files.

#[path = "../../viewer/tests/tools/castings.rs"]
mod castings;
mod tools;

use castings::{ellipsoid, lattice, SIDE};
use tools::{run, run_on, Volume};

const EXAMPLE: &str = "G\t2\t2\t2\t50\t0\t0\n100\t0\n0\t0\n0\t0\n0\t0\n";

#[test]
fn one_void() {
    let mut samples = vec![100; 27];
    samples[13] = 0;
    let volume = Volume::of("one", &samples);
    let words = [
        "list",
        volume.path(),
        "--size",
        "3",
        "3",
        "3",
        "--grey",
        "50",
    ];
    assert_eq!(
        run(&words).unwrap(),
        "1 void.\nShell 0 is a void of 0.167 voxels, from 0.500 to 1.500 along x, 0.500 to 1.500 along y and 0.500 to 1.500 along z.\n"
    );
    let smoothed = [&words[..], &["--rounds", "1", "--weight", "256"]].concat();
    assert_eq!(
        run(&smoothed).unwrap(),
        "0 voids, 1 shell of no volume.\nShell 0 is a shell of no volume, at 1.000 along x, 1.000 along y and 1.000 along z.\n"
    );
    let bent = run(&[&words[..], &["--curvature"]].concat()).unwrap();
    assert_eq!(
        bent,
        "1 void.\nShell 0 is a void of 0.167 voxels, from 0.500 to 1.500 along x, 0.500 to 1.500 along y and 0.500 to 1.500 along z. Its mean curvature is 2.000 per voxel, and no point is sharper.\n"
    );
    let flat = run(&[&smoothed[..], &["--curvature"]].concat()).unwrap();
    assert_eq!(
        flat,
        "0 voids, 1 shell of no volume.\nShell 0 is a shell of no volume, at 1.000 along x, 1.000 along y and 1.000 along z. It has no mean curvature.\n"
    );
}

/// A casting of nine voids as text.
const CASTING: &str = concat!(env!("CARGO_MANIFEST_DIR"), "/../../examples/casting.txt");

#[test]
fn the_readme_and_the_manual_page_have_a_sentence_of_the_list() {
    let list = run(&["list", CASTING]).unwrap();
    let sentence = list.lines().nth(1).unwrap();
    assert!(include_str!("../../../README.md").contains(sentence));
    assert!(include_str!("../../../install/tholbrina.1.in").contains(sentence));
}

#[test]
fn how_sharply_a_void_bends() {
    let list = run(&["list", CASTING, "--curvature"]).unwrap();
    let lines: Vec<&str> = list.lines().collect();
    assert_eq!(
        lines[..3],
        [
            "9 voids.",
            "Shell 0 is a void of 12.172 voxels, from 6.547 to 9.430 along x, 1.625 to 4.379 along y and 1.594 to 4.395 along z. Its mean curvature averages 0.654 per voxel over its area, and is 1.405 at one point, the sharpest of 54.",
            "Shell 1 is a void of 2.909 voxels, from 1.719 to 4.293 along x, 1.719 to 4.246 along y and 1.727 to 4.285 along z. Its mean curvature averages 0.982 per voxel over its area, and is 2.678 at one point, the sharpest of 30.",
        ]
    );
    assert_eq!(lines.len(), 10);
}

#[test]
fn the_text_of_document_01() {
    let list = run_on(&["list", "-"], &mut EXAMPLE.as_bytes()).unwrap();
    assert_eq!(
        list,
        "0 voids, 1 surface that touches the outer face.\nShell 0 is an island of 0.021 voxels, from 0.000 to 0.500 along x, 0.000 to 0.500 along y and 0.000 to 0.500 along z, and touches the outer face.\n"
    );
    let mesh = run_on(&["list", "-", "--mesh"], &mut EXAMPLE.as_bytes()).unwrap();
    assert_eq!(
        mesh,
        "M\t3\t1\t1\nV\t0\t128\t0\t0\t1\nV\t1\t0\t128\t0\t1\nV\t2\t0\t0\t128\t1\nT\t0\t1\t2\nS\t0\t3\t1\t1\t2097152\t0\t128\t0\t128\t0\t128\n"
    );
}

/// A grid of 5 by 5 by 5 samples as text, all 0 but those that are given.
fn text_of(grey: u16, given: &[([usize; 3], u16)]) -> String {
    let mut samples = [0; 125];
    for &([x, y, z], sample) in given {
        samples[x + 5 * (y + 5 * z)] = sample;
    }
    let mut text = format!("G\t5\t5\t5\t{grey}\t0\t0\n");
    for row in samples.chunks(5) {
        let fields: Vec<String> = row.iter().map(u16::to_string).collect();
        text += &(fields.join("\t") + "\n");
    }
    text
}

/// The points stand 16 units from the middle along x, 48 along y and 32 along z. The first four numbers of the place are 1.9375, 2.0625, 1.8125 and 2.1875: halves
/// of the third decimal, which go to the even one.
#[test]
fn a_place_of_six_different_numbers() {
    let text = text_of(
        94,
        &[
            ([2, 2, 2], 100),
            ([1, 2, 2], 4),
            ([3, 2, 2], 4),
            ([2, 1, 2], 68),
            ([2, 3, 2], 68),
            ([2, 2, 1], 52),
            ([2, 2, 3], 52),
        ],
    );
    assert_eq!(
        run_on(&["list", "-"], &mut text.as_bytes()).unwrap(),
        "0 voids, 1 island.\nShell 0 is an island of 0.002 voxels, from 1.938 to 2.062 along x, 1.812 to 2.188 along y and 1.875 to 2.125 along z.\n"
    );
    let mesh = run_on(&["list", "-", "--mesh"], &mut text.as_bytes()).unwrap();
    assert_eq!(
        mesh.lines().last(),
        Some("S\t0\t6\t8\t0\t196608\t496\t528\t464\t560\t480\t544")
    );
}

/// Samples of just the grey value have their points at their own places.
#[test]
fn one_place_along_some_axes() {
    for (above, place) in [
        (
            &[[2, 2, 2]][..],
            "at 2.000 along x, 2.000 along y and 2.000 along z",
        ),
        (
            &[[2, 2, 2], [3, 2, 2]],
            "from 2.000 to 3.000 along x, at 2.000 along y and 2.000 along z",
        ),
        (
            &[[2, 2, 2], [2, 1, 2]],
            "at 2.000 along x, from 1.000 to 2.000 along y and at 2.000 along z",
        ),
        (
            &[[2, 2, 2], [2, 2, 3]],
            "at 2.000 along x, 2.000 along y and from 2.000 to 3.000 along z",
        ),
        (
            &[[2, 2, 2], [2, 1, 2], [2, 2, 3]],
            "at 2.000 along x, from 1.000 to 2.000 along y and 2.000 to 3.000 along z",
        ),
        (
            &[[2, 2, 2], [3, 2, 2], [2, 2, 3]],
            "from 2.000 to 3.000 along x, at 2.000 along y and from 2.000 to 3.000 along z",
        ),
        (
            &[[2, 2, 2], [3, 2, 2], [2, 1, 2]],
            "from 2.000 to 3.000 along x, 1.000 to 2.000 along y and at 2.000 along z",
        ),
    ] {
        let given: Vec<_> = above.iter().map(|&at| (at, 50)).collect();
        let list = run_on(&["list", "-"], &mut text_of(50, &given).as_bytes()).unwrap();
        assert_eq!(
            list,
            format!("0 voids, 1 shell of no volume.\nShell 0 is a shell of no volume, {place}.\n")
        );
    }
}

#[test]
fn malformed_text() {
    let line = |text: &str| run_on(&["list", "-"], &mut text.as_bytes()).unwrap_err();
    for (text, at) in [
        ("", 1),
        ("G\t2\t2\t2\t50\t0\n", 1),
        ("G\t2\t2\t2\t050\t0\t0\n100\t0\n0\t0\n0\t0\n0\t0\n", 1),
        ("G\t2\t2\t2\t65536\t0\t0\n100\t0\n0\t0\n0\t0\n0\t0\n", 1),
        ("G\t2\t2\t2\t50\t0\t0\n100\t0\n0\t0\n0\n0\t0\n", 4),
        ("G\t2\t2\t2\t50\t0\t0\n100\t0\n0\t0\n0\t0\n0\t0", 5),
        ("G\t2\t2\t2\t50\t0\t0\n100\t0\n0\t0\n0\t0\n", 5),
        ("G\t2\t2\t2\t50\t0\t0\n100\t0\n0\t0\n0\t0\n0\t0\n\n", 6),
        ("G\t2\t2\t2\t50\t0\t0\r\n100\t0\r\n", 1),
    ] {
        assert_eq!(
            line(text),
            format!("Refused with number 12: text line malformed; mend that line of the text. It is line {at}.")
        );
    }
    let sides = line("G\t65\t2\t2\t50\t0\t0\n");
    assert!(sides.starts_with("Refused with number 1: a side is below 2 or above 64; "));
    let rounds = line("G\t2\t2\t2\t50\t101\t0\n100\t0\n0\t0\n0\t0\n0\t0\n");
    assert!(rounds.starts_with("Refused with number 10: "));
}

#[test]
fn sizes_and_files_that_do_not_fit() {
    let volume = Volume::of("short", &[100; 27]);
    let sized = |size: [&str; 3]| {
        run(&[
            "list",
            volume.path(),
            "--size",
            size[0],
            size[1],
            size[2],
            "--grey",
            "50",
        ])
    };
    assert_eq!(sized(["3", "3", "3"]).unwrap(), "0 voids.\n");
    assert_eq!(
        sized(["3", "3", "4"]).unwrap_err(),
        "Refused with number 2: samples are not nx·ny·nz; the volume has 54 bytes, and 3 by 3 by 4 samples of two bytes are 72."
    );
    for size in [
        ["65", "3", "3"],
        ["1", "3", "9"],
        ["4294967295", "4294967295", "4294967295"],
    ] {
        assert_eq!(
            sized(size).unwrap_err(),
            "Refused with number 1: a side is below 2 or above 64; cut the volume into parts of 2 to 64 samples a side."
        );
    }
    let odd = Volume::new("odd", &[1, 2, 3]);
    let words = ["list", odd.path(), "--size", "2", "2", "2", "--grey", "1"];
    assert!(run(&words).unwrap_err().contains("has 3 bytes"));
    let folder = std::env::temp_dir();
    let folder = folder.to_str().unwrap();
    assert!(run(&["list", folder])
        .unwrap_err()
        .starts_with(&format!("{folder} cannot be read: ")));
    assert!(run(&["list", "no-such-volume"])
        .unwrap_err()
        .starts_with("no-such-volume cannot be read: "));
}

/// How far the cells of the voids stay from the outer faces.
const MARGIN: f64 = 1.0;

/// Metal of 64 samples a side with so many voids, apart from each other and from the outer faces.
fn casting(voids: usize) -> Vec<u16> {
    let mut samples = vec![1000u16; SIDE * SIDE * SIDE];
    let (length, middles) = lattice(voids, MARGIN);
    let half = [0.36, 0.30, 0.33].map(|share| (share * length).max(1.0));
    for s in middles.flat_map(|middle| ellipsoid(middle, half)) {
        samples[s] = 100;
    }
    samples
}

/// Where a sentence says that a shell lies: the least and the greatest along each axis.
fn place(sentence: &str) -> [[f64; 2]; 3] {
    let numbers: Vec<f64> = sentence
        .split(' ')
        .filter_map(|word| word.parse().ok())
        .collect();
    let [_shell, _size, place @ ..] = &numbers[..] else {
        panic!("{sentence} has no size");
    };
    assert_eq!(place.len(), 6, "{sentence}");
    [0, 2, 4].map(|at| [place[at], place[at + 1]])
}

/// The number of the one place that holds a void's middle.
fn holding(places: &[[[f64; 2]; 3]], middle: [f64; 3]) -> usize {
    let holds = |place: &[[f64; 2]; 3]| {
        (place.iter().zip(&middle)).all(|([least, greatest], at)| least < at && at < greatest)
    };
    let found: Vec<usize> = (0..places.len()).filter(|&n| holds(&places[n])).collect();
    assert_eq!(found.len(), 1, "{middle:?}");
    found[0]
}

/// The list has as many voids as were cast, and the place that it says of each holds the middle of one.
#[test]
fn castings_with_a_known_number_of_voids() {
    for voids in [1, 9, 50, 300] {
        let volume = Volume::of(&format!("casting{voids}"), &casting(voids));
        let words = [
            "list",
            volume.path(),
            "--size",
            "64",
            "64",
            "64",
            "--grey",
            "550",
        ];
        let list = run(&words).unwrap();
        let (first, sentences) = list.split_once('\n').unwrap();
        assert_eq!(
            first,
            if voids == 1 {
                "1 void.".to_string()
            } else {
                format!("{voids} voids.")
            }
        );
        assert!(sentences
            .lines()
            .all(|line| line.contains(" is a void of ")));
        let places: Vec<_> = sentences.lines().map(place).collect();
        assert_eq!(places.len(), voids);
        let mut held: Vec<usize> = lattice(voids, MARGIN)
            .1
            .map(|middle| holding(&places, middle))
            .collect();
        held.sort_unstable();
        assert!(held.into_iter().eq(0..voids));
    }
}
