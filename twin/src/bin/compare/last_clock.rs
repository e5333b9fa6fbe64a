//! One run of both programs to the greatest clock and some letters beyond, the
//! logs compared as they come. It takes minutes.

use std::io::{self, Read, Write};
use std::path::Path;
use std::process::{Child, ChildStdin, Stdio};
use std::thread;

use twin::bench::LAST_CLOCK;
use twin::draft::Draft;

use crate::difference::{Difference, Failure};
use crate::programs::Programs;

/// Letters that find the clock at its greatest, lawful and not.
const BEYOND: &[u8] = b"rhf\nxr";

/// Letters and logs go through in pieces of this size.
const PIECE: usize = 1 << 20;

/// Gives the length of the logs.
pub fn compare(programs: &Programs) -> Result<u64, Failure> {
    let rows = [(5, 720, 3, 700, 1), (7, 1001, 2, 4004, 0)];
    let sheet = Draft::of_figures(&rows).bytes();
    programs.place_sheet(sheet.clone())?;
    let start = |program: &Path| programs.start(program, Stdio::piped());
    let mut product = start(&programs.product)?;
    let mut twin = start(&programs.twin)?;
    let (to_product, to_twin) = (input(&mut product), input(&mut twin));
    let compared = thread::scope(|scope| {
        scope.spawn(|| feed(to_product));
        scope.spawn(|| feed(to_twin));
        compare_outputs(&mut product, &mut twin)
    })?;
    let statuses = (product.wait()?, twin.wait()?);
    match compared {
        Ok(bytes) if statuses.0.success() && statuses.1.success() => Ok(bytes),
        outcome => {
            let call = match outcome {
                Ok(_) => format!("run to the last clock: ended with {statuses:?}"),
                Err(_) => "run to the last clock; the pieces of the logs that differ".to_string(),
            };
            let (product, twin) = outcome.err().unwrap_or_default();
            let letters = b"r (1,000,000,000 times) and then ".iter().chain(BEYOND);
            Err(Failure::from(Difference {
                call,
                sheet: Some(sheet),
                letters: letters.copied().collect(),
                product,
                twin,
            }))
        }
    }
}

fn input(child: &mut Child) -> ChildStdin {
    child.stdin.take().expect("standard input is a pipe")
}

/// Writes all letters, or as many as are taken.
fn feed(mut stdin: ChildStdin) -> io::Result<()> {
    let piece = vec![b'r'; PIECE];
    let mut left = LAST_CLOCK as usize;
    while left > 0 {
        let count = left.min(PIECE);
        stdin.write_all(&piece[..count])?;
        left -= count;
    }
    stdin.write_all(BEYOND)
}

type Pieces = (Vec<u8>, Vec<u8>);

/// The length of both outputs, or the first pieces that differ.
fn compare_outputs(product: &mut Child, twin: &mut Child) -> io::Result<Result<u64, Pieces>> {
    let mut of_product = product.stdout.take().expect("standard output is a pipe");
    let mut of_twin = twin.stdout.take().expect("standard output is a pipe");
    let mut pieces = Pieces::default();
    let mut length = 0;
    loop {
        read_piece(&mut of_product, &mut pieces.0)?;
        read_piece(&mut of_twin, &mut pieces.1)?;
        if pieces.0 != pieces.1 {
            return Ok(Err(pieces));
        }
        if pieces.0.is_empty() {
            return Ok(Ok(length));
        }
        length += pieces.0.len() as u64;
    }
}

/// A whole piece, or what is left.
fn read_piece(output: &mut impl Read, piece: &mut Vec<u8>) -> io::Result<()> {
    piece.clear();
    output.take(PIECE as u64).read_to_end(piece)?;
    Ok(())
}
