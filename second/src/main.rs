//! `second`: a book on standard input, what `annual` prints on standard output.

use std::io::{self, Read, Write};
use std::process::ExitCode;

fn main() -> ExitCode {
    match run() {
        Ok(()) => ExitCode::SUCCESS,
        Err(error) => {
            eprintln!("second: {error}");
            ExitCode::FAILURE
        }
    }
}

fn run() -> io::Result<()> {
    let mut book = Vec::new();
    // One byte more than the longest book has the wrong length already.
    let most = second::annual::LONGEST as u64 + 1;
    io::stdin().lock().take(most).read_to_end(&mut book)?;
    io::stdout().write_all(second::annual::text(&book).as_bytes())
}
