//! The three calls that the product exports, done by the twin. Each gives the
//! number of bytes that it wrote into the lent buffer.

use crate::bench::{Bench, Judged};
use crate::log::Log;
use crate::sheet;

/// Reads the sheet and writes the table again. Gives 0 and alters nothing
/// where the sheet is refused or the buffer is shorter than the sheet.
pub fn rewrite(sheet: &[u8], out: &mut [u8]) -> usize {
    sheet::read(sheet).map_or(0, |table| sheet::write(&table, out).unwrap_or(0))
}

/// The `verdict` line, or the `sheet` line of a refused sheet.
pub fn verdict(sheet: &[u8], out: &mut [u8]) -> usize {
    let mut log = Log::default();
    match sheet::read(sheet) {
        Ok(table) => log.verdict(Judged::new(table).verdict()),
        Err(refusal) => log.no_sheet(refusal),
    }
    lend(&log, out)
}

/// The `end` line of a run with these letters, or the `sheet` line of a refused sheet.
pub fn end(sheet: &[u8], letters: &[u8], out: &mut [u8]) -> usize {
    let mut log = Log::default();
    match sheet::read(sheet) {
        Ok(table) => {
            let mut bench = Bench::open(Judged::new(table));
            for &letter in letters {
                // A refused step alters nothing and is not told of here.
                let _ = bench.step(letter);
            }
            log.end(&bench.close());
        }
        Err(refusal) => log.no_sheet(refusal),
    }
    lend(&log, out)
}

/// Fills the front of the buffer with the line, if it has room.
fn lend(log: &Log, out: &mut [u8]) -> usize {
    let line = log.bytes();
    let Some(front) = out.get_mut(..line.len()) else {
        return 0;
    };
    front.copy_from_slice(line);
    line.len()
}
