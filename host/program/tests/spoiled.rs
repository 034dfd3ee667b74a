//! Thousands of inputs that differ a little from one that is granted, against the reference.

use program::{same, same_all, Seed};
use std::collections::BTreeSet;

const SHORT: &[u8] = b"G\t2\t2\t2\t50\t0\t0\n100\t0\n0\t0\n0\t0\n0\t0\n";

/// Bytes that mean something in the text, bytes beside them, and bytes that mean nothing.
const BYTES: &[u8] = b"\0\t\n\r +-/012569:Ggx\x80\xff";

/// The text with a part of it put in another's place.
fn spliced(text: &[u8], part: std::ops::Range<usize>, new: &[u8]) -> Vec<u8> {
    [&text[..part.start], new, &text[part.end..]].concat()
}

fn all_different(inputs: impl Iterator<Item = Vec<u8>>) -> Vec<Vec<u8>> {
    let different: BTreeSet<Vec<u8>> = inputs.filter(|input| input != SHORT).collect();
    different.into_iter().collect()
}

#[test]
fn the_short_input_is_granted() {
    assert!(same(SHORT).starts_with(b"M\t3\t1\t1\n"));
}

#[test]
fn a_byte_changed() {
    let inputs = all_different((0..SHORT.len()).flat_map(|at| {
        BYTES
            .iter()
            .map(move |&byte| spliced(SHORT, at..at + 1, &[byte]))
    }));
    assert!(inputs.len() > 600);
    same_all(&inputs);
}

#[test]
fn a_byte_put_in() {
    let inputs = all_different((0..=SHORT.len()).flat_map(|at| {
        BYTES
            .iter()
            .map(move |&byte| spliced(SHORT, at..at, &[byte]))
    }));
    assert!(inputs.len() > 600);
    same_all(&inputs);
}

#[test]
fn a_byte_dropped_or_doubled_or_two_exchanged() {
    let places = 0..SHORT.len();
    let dropped = places.clone().map(|at| spliced(SHORT, at..at + 1, b""));
    let doubled = places
        .clone()
        .map(|at| spliced(SHORT, at..at, &[SHORT[at]]));
    let exchanged = places
        .skip(1)
        .map(|at| spliced(SHORT, at - 1..at + 1, &[SHORT[at], SHORT[at - 1]]));
    same_all(&all_different(dropped.chain(doubled).chain(exchanged)));
}

#[test]
fn the_text_cut_off_at_each_place() {
    same_all(&all_different(
        (0..SHORT.len()).map(|at| SHORT[..at].to_vec()),
    ));
}

#[test]
fn a_line_left_out_or_said_twice() {
    let lines: Vec<&[u8]> = SHORT.split_inclusive(|&byte| byte == b'\n').collect();
    let without = (0..lines.len()).map(|at| [&lines[..at], &lines[at + 1..]].concat().concat());
    let twice = (0..lines.len()).map(|at| [&lines[..=at], &lines[at..]].concat().concat());
    same_all(&all_different(without.chain(twice)));
}

/// One text after several changes.
fn changed_often(seed: &mut Seed) -> Vec<u8> {
    let mut text = SHORT.to_vec();
    for _ in 0..2 + seed.below(3) {
        let at = seed.below(text.len());
        let byte = seed.one_of(BYTES);
        text = match seed.below(4) {
            0 => spliced(&text, at..at + 1, b""),
            1 => spliced(&text, at..at, &[byte]),
            _ => spliced(&text, at..at + 1, &[byte]),
        };
    }
    text
}

#[test]
fn several_changes() {
    let mut seed = Seed::new(5);
    let inputs = all_different((0..500).map(|_| changed_often(&mut seed)));
    same_all(&inputs);
}

/// Changes that keep the text well formed in most cases: one number is another.
#[test]
fn one_number_is_another() {
    let text = std::str::from_utf8(SHORT).expect("plain text");
    let fields: Vec<&str> = text.split_inclusive(['\t', '\n']).collect();
    let numbers = [
        "0", "1", "2", "3", "49", "50", "51", "64", "65", "100", "101", "256", "257", "65535",
        "65536",
    ];
    let inputs = all_different((1..fields.len()).flat_map(|at| {
        let fields = &fields;
        numbers.iter().map(move |number| {
            let end = &fields[at][fields[at].len() - 1..];
            let (before, after) = (fields[..at].concat(), fields[at + 1..].concat());
            format!("{before}{number}{end}{after}").into_bytes()
        })
    }));
    same_all(&inputs);
}
