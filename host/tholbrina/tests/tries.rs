//! The tool with try: how many grey values were tried, then a sentence a value, the same that list says of the voids at each.

#[path = "../../viewer/tests/tools/castings.rs"]
mod castings;
mod tools;

use castings::{ellipsoid, lattice, SIDE};
use tools::{bytes_of, run, run_on, tool, Volume};

/// A casting of nine voids as text, 20 by 18 by 14 samples.
const CASTING: &str = concat!(env!("CARGO_MANIFEST_DIR"), "/../../examples/casting.txt");

/// What is said of plain samples of 3 a side on standard input.
fn said(samples: &[u16], values: &[&str]) -> Result<String, String> {
    let words = ["try", "-", "--size", "3", "3", "3"];
    let bytes = bytes_of(samples);
    run_on(&[&words[..], values].concat(), &mut bytes.as_slice())
}

/// 3 by 3 by 3 samples, of which the middle one is another.
fn centre(middle: u16, others: u16) -> [u16; 27] {
    let mut samples = [others; 27];
    samples[13] = middle;
    samples
}

#[test]
fn a_sentence_a_value() {
    let void = centre(0, 100);
    assert_eq!(
        said(&void, &["--greys", "50"]).unwrap(),
        "1 grey value tried.\nGrey value 50: 1 void, 0 surfaces that touch the outer face, 8 triangles, 49 blocks looked at.\n"
    );
    assert_eq!(
        said(&void, &["--greys", "100", "0", "101", "100"]).unwrap(),
        "4 grey values tried.\n\
        Grey value 100: 1 void, 0 surfaces that touch the outer face, 8 triangles, 49 blocks looked at.\n\
        Grey value 0: 0 voids, 0 surfaces that touch the outer face, 0 triangles, 1 block looked at.\n\
        Grey value 101: 0 voids, 0 surfaces that touch the outer face, 0 triangles, 1 block looked at.\n\
        Grey value 100: 1 void, 0 surfaces that touch the outer face, 8 triangles, 49 blocks looked at.\n"
    );
}

/// Islands, shells of no volume and surfaces that touch the outer face.
#[test]
fn other_shells_than_voids() {
    assert_eq!(
        said(&centre(100, 0), &["--greys", "50", "100"]).unwrap(),
        "2 grey values tried.\n\
        Grey value 50: 0 voids, 1 island, 0 surfaces that touch the outer face, 8 triangles, 49 blocks looked at.\n\
        Grey value 100: 0 voids, 1 shell of no volume, 0 surfaces that touch the outer face, 8 triangles, 49 blocks looked at.\n"
    );
    let mut corners = [0; 27];
    (corners[0], corners[26]) = (100, 60);
    assert_eq!(
        said(&corners, &["--greys", "50", "80"]).unwrap(),
        "2 grey values tried.\n\
        Grey value 50: 0 voids, 2 surfaces that touch the outer face, 2 triangles, 49 blocks looked at.\n\
        Grey value 80: 0 voids, 1 surface that touches the outer face, 1 triangle, 49 blocks looked at.\n"
    );
}

/// The grey values that sentences begin with.
fn values(text: &str) -> Vec<u16> {
    let number = |line: &str| {
        let (value, _) = line.strip_prefix("Grey value ")?.split_once(':')?;
        value.parse().ok()
    };
    let lines = text.lines().skip(1);
    lines.map(|line| number(line).expect("a value")).collect()
}

#[test]
fn evenly_spaced_values() {
    for (from, to, step, wanted) in [
        ("300", "590", "10", (0..30).map(|i| 300 + 10 * i).collect()),
        ("5", "11", "3", vec![5, 8, 11]),
        ("5", "10", "3", vec![5, 8]),
        ("7", "7", "1", vec![7]),
        ("0", "65535", "65535", vec![0, 65_535]),
        ("65534", "65535", "1", vec![65_534, 65_535]),
        ("9", "65535", "4294967295", vec![9]),
    ] {
        let spaced = ["--from", from, "--to", to, "--step", step];
        let text = said(&centre(0, 1000), &spaced).unwrap();
        assert_eq!(values(&text), wanted);
        let listed: Vec<String> = wanted.iter().map(u16::to_string).collect();
        let listed: Vec<&str> = listed.iter().map(String::as_str).collect();
        let one_by_one = [&["--greys"], &listed[..]].concat();
        assert_eq!(said(&centre(0, 1000), &one_by_one).unwrap(), text);
    }
}

/// The values end at the next option or at the volume -, wherever they stand.
#[test]
fn words_in_any_order() {
    let bytes = bytes_of(&centre(0, 100));
    let wanted = said(&centre(0, 100), &["--greys", "50", "60"]).unwrap();
    for words in [
        &["try", "--greys", "50", "60", "--size", "3", "3", "3", "-"][..],
        &["try", "--size", "3", "3", "3", "--greys", "50", "60", "-"],
        &["try", "--greys", "50", "60", "-", "--size", "3", "3", "3"],
    ] {
        assert_eq!(run_on(words, &mut bytes.as_slice()).unwrap(), wanted);
    }
    let file = Volume::new("order", &bytes);
    let words = ["try", "--greys", "50", "60", "--size", "3", "3", "3"];
    let with_file = [&words[..], &[file.path()]].concat();
    assert_eq!(run(&with_file).unwrap(), wanted);
}

/// What the text of a grid says of grey value and rounds is passed over.
#[test]
fn the_text_of_a_grid() {
    let text = run(&["try", CASTING, "--greys", "550", "1"]).unwrap();
    let sentence = "Grey value 550: 9 voids, 0 surfaces that touch the outer face, 984 triangles, 1537 blocks looked at.";
    assert_eq!(
        text,
        format!("2 grey values tried.\n{sentence}\nGrey value 1: 0 voids, 0 surfaces that touch the outer face, 0 triangles, 1 block looked at.\n")
    );
    assert!(include_str!("../../../README.md").contains(sentence));
    assert!(include_str!("../../../install/tholbrina.1.in").contains(sentence));
}

/// Metal of 64 samples a side with so many voids, whose samples rise from the middle of each, and a gap in an outer face.
fn casting(voids: usize) -> Vec<u16> {
    let mut samples = vec![1000u16; SIDE * SIDE * SIDE];
    let (length, middles) = lattice(voids, 1.0);
    for middle in middles {
        for (share, sample) in [(0.42, 700), (0.36, 400), (0.30, 100)] {
            for s in ellipsoid(middle, [share * length; 3]) {
                samples[s] = sample;
            }
        }
    }
    samples[..3].fill(600);
    samples
}

/// At each value as many voids and surfaces as list says, and as many triangles as its mesh has.
#[test]
fn as_list_says_at_each_value() {
    let volume = Volume::of("many", &casting(30));
    let size = ["--size", "64", "64", "64"];
    let text = run(&[
        &["try", volume.path()],
        &size[..],
        &["--from", "50", "--to", "1010", "--step", "60"],
    ]
    .concat())
    .unwrap();
    assert!(text.starts_with("17 grey values tried.\n"));
    let mut some = 0;
    for (grey, line) in values(&text).iter().zip(text.lines().skip(1)) {
        let grey = grey.to_string();
        let words = [&["list", volume.path()], &size[..], &["--grey", &grey]].concat();
        let list = run(&words).unwrap();
        let count = list.lines().next().unwrap().trim_end_matches('.');
        let count = match count.contains("outer face") {
            true => count.to_string(),
            false => format!("{count}, 0 surfaces that touch the outer face"),
        };
        let mesh = run(&[&words[..], &["--mesh"]].concat()).unwrap();
        let triangles = mesh.lines().filter(|line| line.starts_with('T')).count();
        let start = format!("Grey value {grey}: {count}, {triangles} triangles, ");
        assert!(line.starts_with(&start), "{line}, {start}");
        some += triangles;
    }
    assert!(some > 10_000, "{some}");
}

/// Samples 0 and 2 in turn along every axis: at grey values 1 and 2 there are more than 250,000 points. The others are tried all the same.
#[test]
fn values_that_are_refused() {
    let samples: Vec<u16> = (0..64 * 64 * 64)
        .map(|s| 2 * ((s ^ s >> 6 ^ s >> 12) & 1) as u16)
        .collect();
    let words = [
        "try", "-", "--size", "64", "64", "64", "--greys", "0", "1", "2", "3",
    ];
    let points = "points exceed 250,000 or the least of the point, edge and mark rooms";
    let bytes = bytes_of(&samples);
    let wanted = format!(
        "4 grey values tried.\n\
        Grey value 0: 0 voids, 0 surfaces that touch the outer face, 0 triangles, 1 block looked at.\n\
        Grey value 1 is refused with number 4: {points}.\n\
        Grey value 2 is refused with number 4: {points}.\n\
        Grey value 3: 0 voids, 0 surfaces that touch the outer face, 0 triangles, 1 block looked at.\n"
    );
    assert_eq!(run_on(&words, &mut bytes.as_slice()).unwrap(), wanted);
    let output = tool(&words, &bytes);
    assert_eq!(output.status.code(), Some(0));
    assert_eq!(output.stderr, b"");
    assert_eq!(String::from_utf8(output.stdout).unwrap(), wanted);
}

/// Three samples of ten are holes, made up, in the first 196,000: more than 500,000 triangles, and fewer points than may be.
#[test]
fn a_value_that_is_refused_for_its_triangles() {
    let mut state = 1u32;
    let samples: Vec<u16> = (0..64 * 64 * 64)
        .map(|s| {
            state = state.wrapping_mul(1_664_525).wrapping_add(1_013_904_223);
            if s < 196_000 && (state >> 16) % 10 < 3 {
                0
            } else {
                1000
            }
        })
        .collect();
    let words = ["try", "-", "--size", "64", "64", "64", "--greys", "500"];
    assert_eq!(
        run_on(&words, &mut bytes_of(&samples).as_slice()).unwrap(),
        "1 grey value tried.\nGrey value 500 is refused with number 5: triangles exceed 500,000 or their room.\n"
    );
}

/// What list says of such a volume, at any grey value.
#[test]
fn volumes_that_are_refused() {
    let file = Volume::of("refused", &[100; 27]);
    for (volume, sides) in [
        (file.path(), ["3", "3", "4"]),
        (file.path(), ["65", "3", "3"]),
        (file.path(), ["4294967295"; 3]),
        ("no-such-volume", ["3"; 3]),
        (std::env::temp_dir().to_str().unwrap(), ["3"; 3]),
    ] {
        let size = [&["--size"], &sides[..]].concat();
        let list = run(&[&["list", volume], &size[..], &["--grey", "50"]].concat());
        let tried = run(&[&["try", volume], &size[..], &["--greys", "50"]].concat());
        assert_eq!(tried, list);
        assert!(tried.is_err());
    }
    for text in ["", "G\t2\t2\t2\t50\t0\n", "G\t65\t2\t2\t50\t0\t0\n"] {
        let list = run_on(&["list", "-"], &mut text.as_bytes());
        let tried = run_on(&["try", "-", "--greys", "50"], &mut text.as_bytes());
        assert_eq!(tried, list);
        assert!(tried.is_err());
    }
}

#[test]
fn a_mesh_is_no_volume() {
    let mesh = run(&["list", CASTING, "--mesh"]).unwrap();
    let output = tool(&["try", "-", "--greys", "50"], mesh.as_bytes());
    assert_eq!(output.status.code(), Some(1));
    assert_eq!(output.stdout, b"");
    assert_eq!(
        String::from_utf8(output.stderr).unwrap(),
        "The volume is the text of a mesh, which has no samples; give the volume that the mesh was made of.\n"
    );
}
