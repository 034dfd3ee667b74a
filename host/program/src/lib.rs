//! The program for small grids, as tools/build leaves it in target/bin: started as a child process, and what it answers held to the reference.

#![forbid(unsafe_code)]

mod bulk;
mod grid;
mod one;
mod seed;

pub use grid::Grid;
pub use one::{answer, finish, start};
pub use seed::Seed;

use std::path::Path;

const PROGRAM: &str = concat!(env!("CARGO_MANIFEST_DIR"), "/../../target/bin/small");

/// Names the emulator where the machine is no x86-64; tools/cargo sets it.
const RUNNER: &str = "CARGO_TARGET_X86_64_UNKNOWN_LINUX_GNU_RUNNER";

/// The words that start the program: itself, or the emulator and then itself.
fn words() -> Vec<String> {
    assert!(
        Path::new(PROGRAM).is_file(),
        "there is no target/bin/small: run tools/build first"
    );
    let runner = std::env::var(RUNNER).unwrap_or_default();
    let words = runner.split_whitespace().chain([PROGRAM]);
    words.map(str::to_string).collect()
}

/// The start of a text, for a message.
fn shown(text: &[u8]) -> String {
    let most = text.len().min(400);
    let rest = text.len() - most;
    format!("\"{}\" and {rest} bytes more", text[..most].escape_ascii())
}

/// Holds what was answered to an input to what is expected, byte for byte.
pub fn hold(input: &[u8], found: &[u8], expected: &[u8]) {
    if found == expected {
        return;
    }
    let same = found
        .iter()
        .zip(expected)
        .take_while(|(f, e)| f == e)
        .count();
    panic!(
        "to {} the answer goes on after {same} bytes with {} where {} is expected",
        shown(input),
        shown(&found[same..]),
        shown(&expected[same..])
    );
}

/// The program answers what the reference does; gives the answer.
pub fn same(input: &[u8]) -> Vec<u8> {
    let found = answer(input);
    hold(input, &found, &reference::text::run(input));
    found
}

/// The program answers what the reference does, to each of the inputs; gives the answers.
pub fn same_all(inputs: &[Vec<u8>]) -> Vec<Vec<u8>> {
    let answers = bulk::answers(inputs);
    for (input, found) in inputs.iter().zip(&answers) {
        hold(input, found, &reference::text::run(input));
    }
    answers
}

fn refusal(number: u32, line: usize) -> Vec<u8> {
    format!("R\t{number}\t{line}\n").into_bytes()
}

/// The program and the reference both refuse with this number and line.
pub fn refused(input: &[u8], number: u32, line: usize) {
    hold(input, &same(input), &refusal(number, line));
}

/// The program and the reference both refuse each input with its number and line.
pub fn refused_all(cases: Vec<(Vec<u8>, u32, usize)>) {
    let inputs: Vec<Vec<u8>> = cases.iter().map(|case| case.0.clone()).collect();
    for ((input, number, line), found) in cases.iter().zip(same_all(&inputs)) {
        hold(input, &found, &refusal(*number, *line));
    }
}
