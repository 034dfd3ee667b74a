//! A mesh that is there as text, opened by the tool: the list is that of its volume, the text comes back, and what is no mesh is refused in one sentence.

mod tools;

use tools::{run, run_on, Volume};

/// A casting of nine voids as the text of a grid, which has rounds of its own.
const CASTING: &str = concat!(env!("CARGO_MANIFEST_DIR"), "/../../examples/casting.txt");

/// Document 02's example.
const EXAMPLE: &str = "M\t3\t1\t1\nV\t0\t128\t0\t0\t1\nV\t1\t0\t128\t0\t1\nV\t2\t0\t0\t128\t1\nT\t0\t1\t2\nS\t0\t3\t1\t1\t2097152\t0\t128\t0\t128\t0\t128\n";

/// What is said of the casting with these options.
fn casting(options: &[&str]) -> String {
    run(&[&["list", CASTING], options].concat()).unwrap()
}

/// What is said of the text of a mesh on standard input.
fn said(text: &str, options: &[&str]) -> Result<String, String> {
    run_on(&[&["list", "-"], options].concat(), &mut text.as_bytes())
}

#[test]
fn the_example_of_document_02() {
    assert_eq!(
        said(EXAMPLE, &[]).unwrap(),
        "0 voids, 1 surface that touches the outer face.\nShell 0 is an island of 0.021 voxels, from 0.000 to 0.500 along x, 0.000 to 0.500 along y and 0.000 to 0.500 along z, and touches the outer face.\n"
    );
    assert_eq!(said(EXAMPLE, &["--mesh"]).unwrap(), EXAMPLE);
    assert_eq!(said("M\t0\t0\t0\n", &[]).unwrap(), "0 voids.\n");
}

/// Raw and smoothed, with curvature and without, from a file and from standard input. A text that is not smoothed comes back.
#[test]
fn a_mesh_is_listed_as_its_volume() {
    for rounds in [
        &[][..],
        &["--rounds", "0"],
        &["--rounds", "7", "--weight", "100"],
    ] {
        let mesh = casting(&[rounds, &["--mesh"]].concat());
        let file = Volume::new(&format!("mesh{}", rounds.concat()), mesh.as_bytes());
        for bend in [&[][..], &["--curvature"]] {
            let list = casting(&[rounds, bend].concat());
            assert!(list.starts_with("9 voids.\n"));
            assert_eq!(said(&mesh, bend).unwrap(), list);
            assert_eq!(run(&[&["list", file.path()], bend].concat()).unwrap(), list);
        }
        assert!(said(&mesh, &["--mesh"]).unwrap() == mesh);
        assert!(run(&["list", file.path(), "--mesh", "--rounds", "0"]).unwrap() == mesh);
        assert!(said(&mesh, &["--mesh", "--rounds", "9", "--weight", "0"]).unwrap() == mesh);
    }
}

/// The raw mesh smoothed is the smoothed volume, its list and its text with the records of the smoothed mesh.
#[test]
fn a_mesh_is_smoothed_as_its_volume() {
    let raw = casting(&["--rounds", "0", "--mesh"]);
    for smoothing in [
        ["--rounds", "1", "--weight", "256"],
        ["--rounds", "7", "--weight", "100"],
    ] {
        for option in ["--mesh", "--curvature"] {
            let options = [&smoothing[..], &[option]].concat();
            let smoothed = said(&raw, &options).unwrap();
            assert!(smoothed == casting(&options));
            assert!(smoothed != casting(&["--rounds", "0", option]));
        }
    }
}

/// Samples that begin with the bytes of an M line are samples, where their size and grey value are given.
#[test]
fn plain_samples_that_begin_with_the_letter() {
    let volume = Volume::new("samples", b"M\t0\t0\t0\n\0\0\0\0\0\0\0\0");
    let words = [
        "list",
        volume.path(),
        "--size",
        "2",
        "2",
        "2",
        "--grey",
        "1",
    ];
    let list = run(&words).unwrap();
    assert!(list.starts_with("0 voids, 1 surface that touches the outer face.\n"));
}

const AGAIN: &str = "the mesh is not as it was written, so have it sent again";
const MEND: &str = "mend that line, or have the mesh sent again";
const MANY: &str = "no mesh has as many shells as line 1 says, so have it sent again";
const LARGE: &str =
    "the mesh is too large, so have the volume cut into parts and the mesh of each sent";

/// What is put in the place of what in the example, where that comes last, and how the sentence starts and ends.
const REFUSALS: &[[&str; 4]] = &[
    ["M\t3", "M 3", "15 at line 1: a line", MEND],
    ["M\t3", "M\t250001", "4: points exceed", LARGE],
    ["M\t3\t1", "M\t3\t500001", "5: triangles exceed", LARGE],
    ["M\t3\t1\t1", "M\t3\t1\t250001", "11: more shells", MANY],
    ["V\t2", "V\t1", "15 at line 4: a line", MEND],
    ["\nT", "\r\nT", "15 at line 4: a line", MEND],
    ["8\n", "8\n\n", "15 at line 7: a line", MEND],
    ["T\t0", "T\t1", "7: a triangle", AGAIN],
    ["V\t1\t0", "V\t1\t16129", "8: a coordinate", AGAIN],
    ["8\t1\nT", "8\t2\nT", "9: a mark", AGAIN],
    ["2097152", "2097153", "16: the S lines", AGAIN],
];

/// One sentence: the number, the line where it is 15, and what to do.
#[test]
fn refusals() {
    for [old, new, start, end] in REFUSALS {
        let (front, rest) = EXAMPLE.split_at(EXAMPLE.rfind(old).unwrap());
        let spoiled = [front, new, &rest[old.len()..]].concat();
        let sentence = said(&spoiled, &[]).unwrap_err();
        let start = format!("Refused with number {start}");
        assert!(sentence.starts_with(&start), "{sentence}");
        assert!(sentence.ends_with(&format!("; {end}.")), "{sentence}");
        assert_eq!(sentence.matches(". ").count(), 0, "{sentence}");
        let options = ["--mesh", "--rounds", "101"];
        assert_eq!(said(&spoiled, &options).unwrap_err(), sentence);
    }
    assert_eq!(
        said(EXAMPLE, &["--rounds", "101"]).unwrap_err(),
        "Refused with number 10: rounds or weight too large; give at most 100 rounds and a weight of at most 256."
    );
}
