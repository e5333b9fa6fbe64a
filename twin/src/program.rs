//! The program: a sheet and letters in, the log out.

use std::io::{self, Read, Write};

use crate::bench::{Bench, Judged};
use crate::log::Log;
use crate::sheet;

/// Letters are read, and lines are written, in pieces of about this size.
const PIECE: usize = 1 << 16;

/// Reads the sheet, judges it, makes a step with each letter to the end of the
/// input and closes. All lines of the letters read so far are written before
/// further input is waited for.
pub fn run(sheet: &[u8], mut letters: impl Read, mut output: impl Write) -> io::Result<()> {
    let mut log = Log::with_capacity(PIECE + 256);
    let table = match sheet::read(sheet) {
        Ok(table) => table,
        Err(refusal) => {
            log.no_sheet(refusal);
            return hand_on(&mut log, &mut output);
        }
    };
    let judged = Judged::new(table);
    log.heading();
    log.verdict(judged.verdict());
    let mut bench = Bench::open(judged);
    let mut piece = vec![0; PIECE];
    loop {
        hand_on(&mut log, &mut output)?;
        let count = match letters.read(&mut piece) {
            Ok(0) => break,
            Ok(count) => count,
            Err(error) if error.kind() == io::ErrorKind::Interrupted => continue,
            Err(error) => return Err(error),
        };
        for &letter in &piece[..count] {
            log.step(bench.step(letter));
            if log.bytes().len() >= PIECE {
                hand_on(&mut log, &mut output)?;
            }
        }
    }
    log.end(&bench.close());
    hand_on(&mut log, &mut output)
}

/// Writes the lines so far and forgets them.
fn hand_on(log: &mut Log, output: &mut impl Write) -> io::Result<()> {
    output.write_all(log.bytes())?;
    output.flush()?;
    log.clear();
    Ok(())
}

#[cfg(test)]
mod tests {
    use super::*;
    use crate::draft::{Draft, Figures};

    fn log_on(rows: &[Figures], letters: &[u8]) -> String {
        log_of(&Draft::of_figures(rows).bytes(), letters)
    }

    fn log_of(sheet: &[u8], letters: &[u8]) -> String {
        let mut output = Vec::new();
        run(sheet, letters, &mut output).unwrap();
        String::from_utf8(output).unwrap()
    }

    #[test]
    fn the_example_run() {
        let expected = "\
tick task job left event
verdict 0
0 1 1 0 d
1 0 0 0 i
2 2 1 2 r
3 2 1 1 r
4 1 2 0 d
5 2 1 0 d
end 6 1 3 1
";
        assert_eq!(
            log_on(&[(0, 4, 1, 3, 0), (2, 6, 3, 6, 1)], b"rrrrrr"),
            expected
        );
    }

    #[test]
    fn holds_early_ends_misses_and_refusals_are_logged() {
        let rows = [(1, 4, 1, 1, 0), (0, 6, 3, 6, 1), (0, 12, 5, 12, 0)];
        let expected = "\
tick task job left event
verdict 1
0 2 1 2 h
refused 14
1 2 1 1 r
miss 1 1
refused 12
end 2 0 1 0
";
        assert_eq!(log_on(&rows, b"h\nrr"), expected);
        let expected = "\
tick task job left event
verdict 1
0 2 1 2 d
1 1 1 0 d
2 3 1 4 r
end 3 0 3 0
";
        assert_eq!(log_on(&rows, b"ffh"), expected);
    }

    #[test]
    fn a_refused_sheet_has_a_single_line() {
        assert_eq!(log_of(b"", b"rrr"), "sheet 1 1 0\n");
    }
}
