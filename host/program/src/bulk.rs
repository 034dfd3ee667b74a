//! Many inputs, each answered by a program of its own. A shell starts the programs and not the test: where the tests run under an emulator, each start
//! of theirs would first copy the emulator with all that its threads hold.

use std::fs;
use std::path::{Path, PathBuf};
use std::process::Command;
use std::sync::atomic::{AtomicUsize, Ordering};

/// Runs the words from the second on, on so many inputs, two at a time: the even and the odd ones. What ends badly or not at all leaves its status.
const EACH: &str = r#"
count=$1
shift
for first in 0 1; do
  (
    at=$first
    while [ "$at" -lt "$count" ]; do
      timeout 60 "$@" <"$at.in" >"$at.out" || echo "$?" >"$at.status"
      at=$((at + 2))
    done
  ) &
done
wait
"#;

/// A folder that is gone when it is no longer needed.
struct Folder(PathBuf);

impl Folder {
    fn new() -> Folder {
        static COUNT: AtomicUsize = AtomicUsize::new(0);
        let count = COUNT.fetch_add(1, Ordering::Relaxed);
        let name = format!("program-{}-{count}", std::process::id());
        let path = std::env::temp_dir().join(name);
        fs::create_dir(&path).expect("the folder for temporary files can be written");
        Folder(path)
    }
}

impl Drop for Folder {
    fn drop(&mut self) {
        let _ = fs::remove_dir_all(&self.0);
    }
}

fn run_each(folder: &Path, count: usize) {
    let status = Command::new("sh")
        .args(["-c", EACH, "sh", &count.to_string()])
        .args(crate::words())
        .current_dir(folder)
        .status()
        .expect("there is a shell");
    assert!(status.success(), "the shell ended with {status}");
}

fn answer(folder: &Path, number: usize) -> Vec<u8> {
    let file = |kind| folder.join(format!("{number}.{kind}"));
    if let Ok(status) = fs::read_to_string(file("status")) {
        let input = fs::read(file("in")).unwrap_or_default();
        panic!(
            "to {} the program ended with status {}",
            crate::shown(&input),
            status.trim()
        );
    }
    fs::read(file("out")).expect("the shell wrote what the program said")
}

/// What the program answers to each of the inputs.
pub fn answers(inputs: &[Vec<u8>]) -> Vec<Vec<u8>> {
    let folder = Folder::new();
    for (number, input) in inputs.iter().enumerate() {
        let file = folder.0.join(format!("{number}.in"));
        fs::write(file, input).expect("the folder for temporary files can be written");
    }
    run_each(&folder.0, inputs.len());
    (0..inputs.len())
        .map(|number| answer(&folder.0, number))
        .collect()
}
