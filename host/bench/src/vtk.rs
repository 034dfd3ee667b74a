//! VTK's filters, timed by the program that `make bench` builds for it.

use std::collections::BTreeMap;
use std::io::Write;
use std::process::{Command, Stdio};

use crate::calls::{greys::Thirty, query::Query};
use crate::subject::GREY;
use crate::Failure;

/// The numbers that the program says for a volume of 64 samples a side, by their names: a filter's is its median time in nanoseconds.
pub fn said(program: &str, samples: &[u16], runs: usize) -> Result<BTreeMap<String, f64>, Failure> {
    let mut child = Command::new(program)
        .args([GREY.to_string(), runs.to_string()])
        .args(Thirty::<Query>::greys().map(|grey| grey.to_string()))
        .stdin(Stdio::piped())
        .stdout(Stdio::piped())
        .spawn()?;
    let bytes: Vec<u8> = samples
        .iter()
        .flat_map(|sample| sample.to_le_bytes())
        .collect();
    let mut input = child.stdin.take().ok_or("no standard input")?;
    input.write_all(&bytes)?;
    drop(input);
    let output = child.wait_with_output()?;
    if !output.status.success() {
        return Err(format!("{program} failed").into());
    }
    String::from_utf8(output.stdout)?
        .lines()
        .map(|line| {
            let (name, number) = line.split_once(' ').ok_or("a line without a number")?;
            Ok((name.to_string(), number.parse()?))
        })
        .collect()
}
