//! Reads `sheet.bin` in the working folder and letters from standard input,
//! and writes the log to standard output.

use std::fs::File;
use std::io::{self, Read};
use std::process::ExitCode;

use twin::{program, sheet};

fn main() -> ExitCode {
    match run() {
        Ok(()) => ExitCode::SUCCESS,
        Err(error) => {
            eprintln!("twin-bench: {error}");
            ExitCode::FAILURE
        }
    }
}

fn run() -> io::Result<()> {
    program::run(&read_sheet()?, io::stdin().lock(), io::stdout().lock())
}

/// The file's bytes, as far as they can matter: one byte more than the longest
/// sheet has. A file that cannot be opened counts as an empty sheet.
fn read_sheet() -> io::Result<Vec<u8>> {
    let mut bytes = Vec::new();
    if let Ok(file) = File::open("sheet.bin") {
        file.take(sheet::LONGEST as u64 + 1)
            .read_to_end(&mut bytes)?;
    }
    Ok(bytes)
}
