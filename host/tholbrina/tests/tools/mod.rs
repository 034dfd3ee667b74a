//! The tool as a test starts it, and the files that it is given.
#![allow(dead_code)]

use std::ffi::OsStr;
use std::io::{empty, Read, Write};
use std::process::{Command, Output, Stdio};

/// What the tool says to these words and this standard input.
pub fn run_on(words: &[&str], input: &mut dyn Read) -> Result<String, String> {
    let words: Vec<String> = words.iter().map(|word| word.to_string()).collect();
    tholbrina::run(&words, input)
}

/// What the tool says to these words.
pub fn run(words: &[&str]) -> Result<String, String> {
    run_on(words, &mut empty())
}

/// Starts the tool with these bytes on its standard input, under the emulator that tools/cargo names where the machine is no x86-64.
pub fn tool(words: &[impl AsRef<OsStr>], input: &[u8]) -> Output {
    let runner = std::env::var("CARGO_TARGET_X86_64_UNKNOWN_LINUX_GNU_RUNNER").unwrap_or_default();
    let mut start = runner
        .split_whitespace()
        .chain([env!("CARGO_BIN_EXE_tholbrina")]);
    let mut tool = Command::new(start.next().expect("the tool itself"))
        .args(start)
        .args(words)
        .stdin(Stdio::piped())
        .stdout(Stdio::piped())
        .stderr(Stdio::piped())
        .spawn()
        .expect("the tool starts");
    // A tool that ends before it has read all closes its end.
    let mut standard_input = tool.stdin.take().expect("the tool has a standard input");
    let _ = standard_input.write_all(input);
    drop(standard_input);
    tool.wait_with_output().expect("the tool ends")
}

/// Plain samples as bytes.
pub fn bytes_of(samples: &[u16]) -> Vec<u8> {
    samples.iter().flat_map(|s| s.to_le_bytes()).collect()
}

/// A file that is gone when the test is done.
pub struct Volume(std::path::PathBuf);

impl Volume {
    pub fn new(name: &str, bytes: &[u8]) -> Volume {
        let path = std::env::temp_dir().join(format!("tholbrina-{}-{name}", std::process::id()));
        std::fs::write(&path, bytes).expect("the folder for temporary files can be written");
        Volume(path)
    }

    /// Plain samples.
    pub fn of(name: &str, samples: &[u16]) -> Volume {
        Volume::new(name, &bytes_of(samples))
    }

    pub fn path(&self) -> &str {
        self.0.to_str().expect("a plain path")
    }
}

impl Drop for Volume {
    fn drop(&mut self) {
        let _ = std::fs::remove_file(&self.0);
    }
}
