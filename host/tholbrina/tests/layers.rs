//! The tool with --layers: the same list, byte for byte, of plain samples that are read layer by layer, and a sentence where they are not what was said.

#[path = "../../viewer/tests/tools/castings.rs"]
mod castings;
mod tools;

use std::io::{Error, Read};

use castings::{ellipsoid, lattice, SIDE};
use tools::{bytes_of, run, run_on, tool, Volume};

/// The words for plain samples of these sides, and some options.
fn words<'a>(
    volume: &'a str,
    sides: &'a [String; 3],
    grey: &'a str,
    options: &[&'a str],
) -> Vec<&'a str> {
    let [nx, ny, nz] = sides;
    let words = ["list", volume, "--size", nx, ny, nz, "--grey", grey];
    [&words, options].concat()
}

/// Bytes that come a few at a time, as many as a made-up number says.
struct Slowly<'a>(&'a [u8], u64);

impl Read for Slowly<'_> {
    fn read(&mut self, room: &mut [u8]) -> std::io::Result<usize> {
        self.1 = self
            .1
            .wrapping_mul(6_364_136_223_846_793_005)
            .wrapping_add(1);
        let few = room.len().min(1 + (self.1 >> 60) as usize);
        self.0.read(&mut room[..few])
    }
}

/// With and without the word, from a file and from standard input, all at once and slowly: the same is said.
fn same(name: &str, sides: [u32; 3], grey: u16, samples: &[u16]) -> String {
    let file = Volume::of(name, samples);
    let bytes = bytes_of(samples);
    let (sides, grey) = (sides.map(|side| side.to_string()), grey.to_string());
    let mut list = String::new();
    for options in [
        &["--mesh"][..],
        &["--curvature"],
        &["--rounds", "3", "--weight", "100", "--mesh"],
        &["--rounds", "3", "--weight", "100"],
        &[],
    ] {
        let layers = [options, &["--layers"]].concat();
        list = run(&words(file.path(), &sides, &grey, options)).unwrap();
        let said = |volume: &str, from: &mut dyn Read| {
            run_on(&words(volume, &sides, &grey, &layers), from).unwrap()
        };
        assert!(said(file.path(), &mut std::io::empty()) == list, "{name}");
        assert!(said("-", &mut bytes.as_slice()) == list, "{name}");
        assert!(said("-", &mut Slowly(&bytes, 7)) == list, "{name}");
    }
    list
}

/// Metal of 64 samples a side with so many voids.
fn casting(voids: usize) -> Vec<u16> {
    let mut samples = vec![1000u16; SIDE * SIDE * SIDE];
    let (length, middles) = lattice(voids, 1.0);
    let half = [0.36, 0.30, 0.33].map(|share| share * length);
    for s in middles.flat_map(|middle| ellipsoid(middle, half)) {
        samples[s] = 100;
    }
    samples
}

#[test]
fn the_same_list_of_castings() {
    for voids in [9, 50] {
        let samples = casting(voids);
        let list = same(&format!("voids{voids}"), [64; 3], 550, &samples);
        assert!(list.starts_with(&format!("{voids} voids.\n")), "{list}");
    }
}

#[test]
fn the_same_list_of_every_shape() {
    let mut state = 1u32;
    let mut shells = 0;
    for sides in [
        [2, 2, 2],
        [2, 3, 4],
        [4, 3, 2],
        [7, 2, 5],
        [64, 2, 3],
        [3, 64, 2],
        [2, 3, 64],
        [9, 8, 7],
    ] {
        let samples: Vec<u16> = (0..sides.iter().product())
            .map(|_| {
                state = state.wrapping_mul(1_664_525).wrapping_add(1_013_904_223);
                (state >> 16) as u16
            })
            .collect();
        let list = same(&format!("{sides:?}"), sides, 50_000, &samples);
        shells += list.lines().count() - 1;
        assert_eq!(same("none", sides, 0, &samples), "0 voids.\n");
    }
    assert!(shells > 100, "{shells}");
}

/// The words for 3 by 3 by 3 samples on standard input.
const WORDS: [&str; 9] = [
    "list", "-", "--size", "3", "3", "3", "--grey", "50", "--layers",
];

/// What is said where the bytes of 3 by 3 by 3 samples are others than 54.
fn other(number: u32, has: &str) -> String {
    let words = match number {
        17 => "a layer is not nx·ny samples long, or is one too many",
        _ => "a run of layers is closed early, or a second time",
    };
    format!("Refused with number {number}: {words}; the volume has {has} bytes, and 3 by 3 by 3 samples of two bytes are 54.")
}

/// An end between two layers is an early closing, any other a layer of wrong length.
#[test]
fn a_volume_that_ends_early() {
    for length in 0..54 {
        let number = if length % 18 == 0 { 18 } else { 17 };
        let bytes = vec![1; length];
        assert_eq!(
            run_on(&WORDS, &mut bytes.as_slice()).unwrap_err(),
            other(number, &length.to_string())
        );
    }
    assert_eq!(run_on(&WORDS, &mut &[1; 54][..]).unwrap(), "0 voids.\n");
}

/// A volume that goes on is not read to its end: it may have none.
#[test]
fn a_volume_that_goes_on_too_long() {
    for length in [55, 56, 71, 72, 73, 5_400] {
        let bytes = vec![1; length];
        let said = run_on(&WORDS, &mut bytes.as_slice());
        assert_eq!(said.unwrap_err(), other(17, "more than 54"));
    }
    let endless = run_on(&WORDS, &mut std::io::repeat(1));
    assert_eq!(endless.unwrap_err(), other(17, "more than 54"));
}

/// Without the word the whole volume is read first.
#[test]
fn a_file_of_another_size() {
    let file = Volume::new("short", &[1; 53]);
    let mut words = WORDS;
    words[1] = file.path();
    assert_eq!(run(&words).unwrap_err(), other(17, "53"));
    let whole = run(&words[..8]).unwrap_err();
    assert!(whole.starts_with("Refused with number 2: "));
    let sizes = "; the volume has 53 bytes, and 3 by 3 by 3 samples of two bytes are 54.";
    assert!(whole.ends_with(sizes));
}

#[test]
fn what_is_refused_without_the_word_too() {
    let file = Volume::new("sides", &[1; 54]);
    for sides in [["65", "3", "3"], ["3", "3", "1"], ["4294967295"; 3]] {
        let sides = sides.map(str::to_string);
        let plain = run(&words(file.path(), &sides, "50", &[])).unwrap_err();
        assert!(plain.starts_with("Refused with number 1: "), "{plain}");
        let layers = run(&words(file.path(), &sides, "50", &["--layers"]));
        assert_eq!(layers.unwrap_err(), plain);
    }
    let folder = std::env::temp_dir();
    let sides = ["3"; 3].map(str::to_string);
    for name in [folder.to_str().unwrap(), "no-such-volume"] {
        let plain = run(&words(name, &sides, "50", &[])).unwrap_err();
        assert!(plain.starts_with(&format!("{name} cannot be read: ")));
        let layers = run(&words(name, &sides, "50", &["--layers"]));
        assert_eq!(layers.unwrap_err(), plain);
    }
    let rounds = [&WORDS[..], &["--rounds", "101"]].concat();
    let said = run_on(&rounds, &mut &[1; 54][..]).unwrap_err();
    assert!(said.starts_with("Refused with number 10: "), "{said}");
}

/// Bytes that must not be read to their end.
struct Until<'a> {
    bytes: &'a [u8],
    /// The most that were asked for at once.
    most: usize,
}

impl Read for Until<'_> {
    fn read(&mut self, room: &mut [u8]) -> std::io::Result<usize> {
        self.most = self.most.max(room.len());
        match self.bytes.read(room)? {
            0 => Err(Error::other("the scanner is broken")),
            some => Ok(some),
        }
    }
}

/// A checkerboard has 12,160 points a layer, so that layer 21 brings them past 250,000. It is refused before more is read. Never more than a layer is asked for at
/// once.
#[test]
fn each_layer_is_taken_before_the_next_is_read() {
    let samples: Vec<u16> = (0..64 * 64 * 64)
        .map(|s| ((s ^ s >> 6 ^ s >> 12) & 1) as u16)
        .collect();
    let bytes = bytes_of(&samples);
    let sides = ["64"; 3].map(str::to_string);
    let words = words("-", &sides, "1", &["--layers"]);
    let until = |layers: usize| {
        let mut from = Until {
            bytes: &bytes[..layers * 64 * 64 * 2],
            most: 0,
        };
        let said = run_on(&words, &mut from).unwrap_err();
        assert!(from.most <= 64 * 64 * 2, "{}", from.most);
        said
    };
    let broken = "Standard input cannot be read: the scanner is broken.";
    assert_eq!(until(21), broken);
    let many = until(22);
    assert!(many.starts_with("Refused with number 4: "), "{many}");
    assert_eq!(run_on(&words, &mut bytes.as_slice()).unwrap_err(), many);
}

/// The program itself, with a volume on its standard input.
#[test]
fn the_tool_ends_with_its_status() {
    let mut samples = [100; 27];
    samples[13] = 0;
    let bytes = bytes_of(&samples);
    let output = tool(&WORDS, &bytes);
    assert_eq!(output.status.code(), Some(0));
    assert_eq!(output.stderr, b"");
    let list = run_on(&WORDS[..8], &mut bytes.as_slice()).unwrap();
    assert!(list.starts_with("1 void.\n"));
    assert_eq!(String::from_utf8(output.stdout).unwrap(), list);

    let long = [&bytes[..], &[0]].concat();
    for (input, said) in [
        (&bytes[..36], other(18, "36")),
        (&bytes[..53], other(17, "53")),
        (&long, other(17, "more than 54")),
    ] {
        let output = tool(&WORDS, input);
        assert_eq!(output.status.code(), Some(1));
        assert_eq!(output.stdout, b"");
        assert_eq!(String::from_utf8(output.stderr).unwrap(), said + "\n");
    }
}
