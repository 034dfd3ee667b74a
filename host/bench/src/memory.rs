//! The peak memory of a call of the library: of a process that reads what the call reads, lends it rooms and makes it once.

use std::io::{BufReader, BufWriter, Read, Write};
use std::process::{Command, Stdio};

use crate::calls::Call;
use crate::subject::Subject;
use crate::Failure;

/// The most memory that this process has had in the machine so far, in kB.
fn most() -> Result<u64, Failure> {
    let status = std::fs::read_to_string("/proc/self/status")?;
    let line = status.lines().find_map(|line| line.strip_prefix("VmHWM:"));
    let words = line.ok_or("/proc/self/status has no VmHWM")?;
    Ok(words.trim_end_matches("kB").trim().parse()?)
}

/// In the process that is measured: by how much its most memory rises from its start to the call's end.
pub fn said<C: Call>() -> Result<(), Failure> {
    let start = most()?;
    if C::once(&mut BufReader::new(std::io::stdin()))? != 0 {
        return Err(format!("{} is refused", C::NAME).into());
    }
    println!("{}", most()? - start);
    Ok(())
}

/// The peak of one call of the library in a process of its own, in MB: what it reads, its rooms, and anything that it takes beside them.
pub fn peak<C: Call>(on: &Subject) -> Result<f64, Failure> {
    let mut child = Command::new(std::env::current_exe()?)
        .args(["peak", C::NAME])
        .stdin(Stdio::piped())
        .stdout(Stdio::piped())
        .spawn()?;
    let mut input = BufWriter::new(child.stdin.take().ok_or("no standard input")?);
    C::input(on).write(&mut input)?;
    input.flush()?;
    drop(input);
    let mut said = String::new();
    let mut output = child.stdout.take().ok_or("no standard output")?;
    output.read_to_string(&mut said)?;
    if !child.wait()?.success() {
        return Err("the process whose memory is measured failed".into());
    }
    Ok(said.trim().parse::<f64>()? * 1024.0 / 1e6)
}
