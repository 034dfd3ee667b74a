//! tholbrina list VOLUME: the voids of a casting, in sentences. tholbrina try VOLUME: many grey values, a sentence each.

use std::io::Write;
use std::process::ExitCode;

/// The words of the command line, which may hold bytes that are no text.
fn words() -> Result<Vec<String>, String> {
    std::env::args_os()
        .skip(1)
        .map(|word| {
            word.into_string().map_err(|word| {
                let shown = word.to_string_lossy();
                format!("{shown} is not plain text; give the volume on standard input.")
            })
        })
        .collect()
}

fn main() -> ExitCode {
    match words().and_then(|words| tholbrina::run(&words, &mut std::io::stdin())) {
        Ok(text) => match std::io::stdout().write_all(text.as_bytes()) {
            Ok(()) => ExitCode::SUCCESS,
            Err(_) => ExitCode::FAILURE,
        },
        Err(sentence) => {
            eprintln!("{sentence}");
            ExitCode::FAILURE
        }
    }
}
