//! The words of the command line: help, version, what is said of a wrong word, and the manual page beside them.

mod tools;

use std::collections::BTreeMap;

use tools::{run, tool};

/// What is said on standard output, alone and with status 0.
fn said(words: &[&str]) -> String {
    let output = tool(words, b"");
    assert!(output.status.success(), "{words:?}");
    assert_eq!(output.stderr, b"", "{words:?}");
    String::from_utf8(output.stdout).expect("the tool says text")
}

const HELP: &str = "\
tholbrina lists the voids of a casting, a sentence a void.
Write tholbrina list VOLUME, and after it any of the options.
VOLUME is the name of a file, or - for standard input.
It is the text of a grid, or the text of a mesh as --mesh writes it.
If its size and grey value are given, it is plain samples instead.
A sample has 16 bits, the low byte first, and x goes fastest.
--size NX NY NZ gives the samples a side, each 2 to 64.
--grey G gives the grey value of the metal's surface, 0 to 65535.
--layers reads plain samples layer by layer, and holds two layers at most.
--rounds K smooths the surface K times, 0 to 100.
--weight W says how far a round moves a point, 0 to 256.
--curvature adds how sharply each shell bends.
--mesh writes the mesh as text in place of the list.
To try many grey values on one casting, write tholbrina try VOLUME.
It says a sentence a value, and smooths nothing.
Its VOLUME is plain samples if --size is given, else the text of a grid.
--greys G1 G2 .. gives the grey values, each 0 to 65535.
--from A gives the first of evenly spaced grey values instead, 0 to 65535.
--to B gives the greatest that they may have, 0 to 65535.
--step S gives how far each is above the one before, at least 1.
--help says these lines.
--version says the version.
";

#[test]
fn help() {
    assert_eq!(said(&["--help"]), HELP);
    assert_eq!(said(&["list", "no-such-volume", "--help"]), HELP);
    assert_eq!(said(&["try", "--greys", "1", "--help"]), HELP);
}

#[test]
fn the_version_is_the_header_s() {
    let header = include_str!("../../../include/tholbrina.h");
    let text = said(&["--version"]);
    let version = text.strip_prefix("tholbrina ").unwrap().trim_end();
    assert_eq!(version.split('.').count(), 3);
    assert!(version.split('.').all(|part| part.parse::<u32>().is_ok()));
    assert!(header.contains(&format!("\n#define THOLBRINA_VERSION \"{version}\"\n")));
    assert_eq!(said(&["list", "--version"]), text);
    assert_eq!(said(&["try", "--version"]), text);
}

/// These words are answered with one sentence of this start.
fn wrong(words: &[&str], start: &str) {
    let sentence = format!("{start}; tholbrina --help says what can be written.");
    assert_eq!(run(words), Err(sentence), "{words:?}");
}

#[test]
fn a_wrong_word_is_named() {
    for (words, start) in [
        (&["show", "x"][..], "show is not a command"),
        (&[], "A command is missing"),
        (&["list"], "The volume is missing after list"),
        (&["list", "a", "b"], "b is one volume too many"),
        (&["list", "-", "-"], "- is one volume too many"),
        (
            &["list", "a", "--colour"],
            "--colour is not an option of list",
        ),
        (
            &["list", "a", "--greys", "1"],
            "--greys is not an option of list",
        ),
        (
            &["list", "a", "--size", "2", "2"],
            "A number is missing after --size",
        ),
        (
            &["list", "a", "--size", "2", "2", "2"],
            "--size is there without --grey",
        ),
        (
            &["list", "a", "--grey", "2"],
            "--grey is there without --size",
        ),
        (
            &["list", "a", "--layers"],
            "--layers is there without --size and --grey",
        ),
        (
            &["list", "a", "--layers", "--size", "2", "2", "2"],
            "--size is there without --grey",
        ),
        (&["list", "a", "--layers", "2"], "2 is one volume too many"),
        (
            &["list", "a", "--rounds", "x"],
            "x after --rounds is not a whole number",
        ),
        (
            &["list", "a", "--weight", "-1"],
            "-1 after --weight is not a whole number",
        ),
        (
            &["list", "a", "--size", "2", "2", "2", "--grey", "65536"],
            "65536 after --grey is above 65535",
        ),
    ] {
        wrong(words, start);
    }
    let output = tool(&["show"], b"");
    assert_eq!(output.status.code(), Some(1));
    assert_eq!(output.stdout, b"");
    assert_eq!(
        output.stderr,
        b"show is not a command; tholbrina --help says what can be written.\n"
    );
}

/// The words after a volume to try, parted by spaces, and what is wrong with them.
const TRIES: &[[&str; 2]] = &[
    ["", "The grey values are missing after try"],
    ["--size 2 2 2", "The grey values are missing after try"],
    ["--greys", "A number is missing after --greys"],
    [
        "--greys --size 2 2 2",
        "--size after --greys is not a whole number",
    ],
    ["--greys 1 b", "b after --greys is not a whole number"],
    ["--greys 1 -2", "-2 after --greys is not a whole number"],
    ["--greys 1.5", "1.5 after --greys is not a whole number"],
    ["--greys 1 65536 2", "65536 after --greys is above 65535"],
    ["--greys 1 -", "- is one volume too many"],
    ["b --greys 1", "b is one volume too many"],
    [
        "--size 2 2 --greys 1",
        "--greys after --size is not a whole number",
    ],
    ["--greys 1 --from 1", "--greys is there with --from"],
    ["--step 1 --greys 1 --to 2", "--greys is there with --to"],
    ["--greys 1 --step 1", "--greys is there with --step"],
    [
        "--from 1 --to 2",
        "--from, --to and --step go together, and --step is missing",
    ],
    [
        "--to 2 --step 1",
        "--from, --to and --step go together, and --from is missing",
    ],
    [
        "--step 1 --from 1",
        "--from, --to and --step go together, and --to is missing",
    ],
    [
        "--step 1",
        "--from, --to and --step go together, and --from is missing",
    ],
    ["--from 1 --to 2 --step", "A number is missing after --step"],
    ["--from 1 --to 2 --step 0", "0 after --step is below 1"],
    [
        "--from 3 --to 2 --step 1",
        "3 after --from is above 2 after --to",
    ],
    [
        "--from 65536 --to 2 --step 1",
        "65536 after --from is above 65535",
    ],
    [
        "--from 1 --to 70000 --step 1",
        "70000 after --to is above 65535",
    ],
    [
        "--from -1 --to 2 --step 1",
        "-1 after --from is not a whole number",
    ],
    ["--greys 1 --grey 2", "--grey is not an option of try"],
    ["--greys 1 --layers", "--layers is not an option of try"],
    ["--greys 1 --rounds 2", "--rounds is not an option of try"],
    ["--greys 1 --mesh", "--mesh is not an option of try"],
    ["--colour", "--colour is not an option of try"],
];

#[test]
fn a_wrong_word_to_try_is_named() {
    for [words, start] in TRIES {
        let words: Vec<&str> = words.split_whitespace().collect();
        wrong(&[&["try", "a"], &words[..]].concat(), start);
    }
    wrong(&["try"], "The volume is missing after try");
    wrong(&["try", "--greys", "1"], "The volume is missing after try");
    let output = tool(&["try", "a"], b"");
    assert_eq!(output.status.code(), Some(1));
    assert_eq!(output.stdout, b"");
    assert_eq!(
        output.stderr,
        b"The grey values are missing after try; tholbrina --help says what can be written.\n"
    );
}

#[test]
fn a_word_that_is_no_text() {
    use std::os::unix::ffi::OsStrExt;
    let output = tool(&[std::ffi::OsStr::from_bytes(b"caf\xe9")], b"");
    assert_eq!(output.status.code(), Some(1));
    assert_eq!(
        String::from_utf8_lossy(&output.stderr),
        "caf\u{fffd} is not plain text; give the volume on standard input.\n"
    );
}

/// "2 to 64" in a sentence.
fn bounds(sentence: &str) -> Option<String> {
    let words: Vec<&str> = sentence.split(|c: char| !c.is_alphanumeric()).collect();
    words
        .windows(3)
        .find(|three| three[1] == "to" && three[0].parse::<u32>().is_ok())
        .map(|three| three.join(" "))
}

/// The manual page has the options of --help, each with the same bounds.
#[test]
fn the_manual_page_has_the_same_options() {
    let page = include_str!("../../../install/tholbrina.1.in");
    let page: BTreeMap<&str, Option<String>> = page
        .split(".It Fl -")
        .skip(1)
        .map(|item| {
            let item = item.split(".El").next().unwrap();
            (item.split_whitespace().next().unwrap(), bounds(item))
        })
        .collect();
    let help: BTreeMap<&str, Option<String>> = HELP
        .lines()
        .filter_map(|line| line.strip_prefix("--"))
        .map(|line| (line.split_whitespace().next().unwrap(), bounds(line)))
        .collect();
    assert_eq!(page, help);
    assert_eq!(help.values().flatten().count(), 7);
}
