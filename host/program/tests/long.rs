//! Inputs that are longer than any grid, that never end, or that come in pieces. The program answers and ends.

use program::{finish, hold, refused, same, start};
use std::fs::File;
use std::io::Write;
use std::process::Stdio;
use std::thread::sleep;
use std::time::Duration;

const SHORT: &[u8] = b"G\t2\t2\t2\t50\t0\t0\n100\t0\n0\t0\n0\t0\n0\t0\n";

const TEN_MILLION: usize = 10_000_000;

/// A text, and ten million bytes after it.
fn and_long(start: &[u8], byte: u8) -> Vec<u8> {
    let mut input = start.to_vec();
    input.resize(start.len() + TEN_MILLION, byte);
    input
}

#[test]
fn ten_million_bytes_and_nothing_else() {
    for byte in [b'\t', b'0', b'9', b'G', b'\n', b' ', 0, 0xff] {
        refused(&and_long(b"", byte), 12, 1);
    }
}

#[test]
fn a_number_of_ten_million_digits_in_line_1() {
    for digit in [b'0', b'1'] {
        refused(&and_long(b"G\t2\t2\t2\t50\t0\t", digit), 12, 1);
    }
}

#[test]
fn a_sample_of_ten_million_digits() {
    for digit in [b'0', b'1'] {
        refused(&and_long(b"G\t2\t2\t2\t50\t0\t0\n100\t", digit), 12, 2);
    }
}

#[test]
fn a_grid_and_ten_million_bytes_after_it() {
    for byte in [b'\t', b'0', b'\n', 0] {
        refused(&and_long(SHORT, byte), 12, 6);
    }
}

#[test]
fn many_grids_one_after_the_other() {
    refused(&SHORT.repeat(100_000), 12, 6);
}

#[test]
fn ten_million_bytes_after_a_line_1_that_is_refused() {
    refused(&and_long(b"G\t65\t2\t2\t50\t0\t0\n", b'0'), 1, 0);
    refused(&and_long(b"G\t64\t64\t64\t50\t0\t0\n", b'0'), 13, 0);
    refused(&and_long(b"G\t2\t2\t2\t50\t101\t0\n", b'0'), 10, 0);
}

#[test]
fn an_input_that_never_ends() {
    let endless = File::open("/dev/zero").expect("there is /dev/zero");
    hold(b"zeros", &finish(start(endless)), b"R\t12\t1\n");
}

#[test]
fn no_input() {
    refused(b"", 12, 1);
    hold(b"", &finish(start(Stdio::null())), b"R\t12\t1\n");
}

#[test]
fn an_input_that_comes_byte_by_byte() {
    let mut child = start(Stdio::piped());
    let mut pipe = child.stdin.take().expect("standard input is a pipe");
    for byte in SHORT {
        pipe.write_all(&[*byte]).expect("the program still reads");
        sleep(Duration::from_millis(3));
    }
    drop(pipe);
    hold(SHORT, &finish(child), &same(SHORT));
}

#[test]
fn an_input_from_a_file() {
    let path = std::env::temp_dir().join(format!("program-{}.txt", std::process::id()));
    std::fs::write(&path, SHORT).expect("the folder for temporary files can be written");
    let file = File::open(&path).expect("the file was just written");
    let found = finish(start(file));
    std::fs::remove_file(&path).expect("the file was just written");
    hold(SHORT, &found, &same(SHORT));
}

#[test]
fn lines_that_end_in_two_bytes() {
    let text = std::str::from_utf8(SHORT).expect("plain text");
    refused(text.replace('\n', "\r\n").as_bytes(), 12, 1);
    refused(text.replace('\n', "\r").as_bytes(), 12, 1);
    refused(text.replace('\t', " ").as_bytes(), 12, 1);
}
