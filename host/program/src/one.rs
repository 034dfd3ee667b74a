//! One input to one program, by pipes.

use std::io::{ErrorKind, Read, Write};
use std::process::{Child, Command, Stdio};
use std::sync::mpsc;
use std::thread;
use std::time::Duration;

/// Far longer than the program ever takes.
const LONGEST: Duration = Duration::from_secs(60);

/// Starts the program on this standard input.
pub fn start(input: impl Into<Stdio>) -> Child {
    let words = crate::words();
    Command::new(&words[0])
        .args(&words[1..])
        .stdin(input)
        .stdout(Stdio::piped())
        .spawn()
        .expect("target/bin/small starts, on a machine that is no x86-64 under tools/cargo")
}

/// Waits for the program's end, and gives all that it wrote.
pub fn finish(mut child: Child) -> Vec<u8> {
    let mut output = child.stdout.take().expect("standard output is a pipe");
    let (sender, receiver) = mpsc::channel();
    thread::spawn(move || {
        let mut answer = Vec::new();
        let read = output.read_to_end(&mut answer);
        // Nobody listens any more if the time was up.
        let _ = sender.send(read.map(|_| answer));
    });
    let Ok(answer) = receiver.recv_timeout(LONGEST) else {
        let _ = child.kill();
        panic!("the program did not end within {LONGEST:?}");
    };
    let status = child.wait().expect("the program can be waited for");
    assert!(status.success(), "the program ended with {status}");
    answer.expect("the program's output can be read")
}

/// Writes as much of the input as the program takes: it may end before it has read a long one.
fn feed(mut pipe: impl Write, input: &[u8]) {
    match pipe.write_all(input) {
        Err(error) if error.kind() != ErrorKind::BrokenPipe => {
            panic!("the input cannot be written: {error}")
        }
        _ => {}
    }
}

/// What the program answers to an input.
pub fn answer(input: &[u8]) -> Vec<u8> {
    let mut child = start(Stdio::piped());
    let pipe = child.stdin.take().expect("standard input is a pipe");
    thread::scope(|scope| {
        scope.spawn(|| feed(pipe, input));
        finish(child)
    })
}
