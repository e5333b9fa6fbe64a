//! The report of a case in which product and twin differ.

use std::fmt;
use std::io;

/// Outputs with more lines are shown only around the first difference.
const SHOWN_LINES: usize = 60;
const LINES_AROUND: usize = 8;
const SHOWN_LETTERS: usize = 4000;

/// Why a comparison did not come to its end.
#[derive(Debug)]
pub enum Failure {
    Difference(Box<Difference>),
    Trouble(io::Error),
}

impl From<Difference> for Failure {
    fn from(difference: Difference) -> Self {
        Failure::Difference(Box::new(difference))
    }
}

impl From<io::Error> for Failure {
    fn from(error: io::Error) -> Self {
        Failure::Trouble(error)
    }
}

#[derive(Debug)]
pub struct Difference {
    /// What was called, and how.
    pub call: String,
    /// None where there was no file.
    pub sheet: Option<Vec<u8>>,
    pub letters: Vec<u8>,
    pub product: Vec<u8>,
    pub twin: Vec<u8>,
}

impl fmt::Display for Difference {
    fn fmt(&self, f: &mut fmt::Formatter) -> fmt::Result {
        writeln!(f, "call: {}", self.call)?;
        match &self.sheet {
            Some(bytes) => writeln!(f, "sheet, {} bytes: {}", bytes.len(), Hex(bytes))?,
            None => writeln!(f, "no sheet")?,
        }
        let shown = &self.letters[..self.letters.len().min(SHOWN_LETTERS)];
        let cut = if shown.len() < self.letters.len() {
            " (the first are shown)"
        } else {
            ""
        };
        writeln!(
            f,
            "{} letters{cut}: {}",
            self.letters.len(),
            shown.escape_ascii()
        )?;

        let product = lines(&self.product);
        let twin = lines(&self.twin);
        let common = product
            .iter()
            .zip(&twin)
            .take_while(|(a, b)| a == b)
            .count();
        show_output(f, "product", &product, common)?;
        show_output(f, "twin", &twin, common)?;
        writeln!(f, "first differing line: {}", common + 1)?;
        show_line(f, "product", product.get(common))?;
        show_line(f, "twin", twin.get(common))
    }
}

fn lines(bytes: &[u8]) -> Vec<&[u8]> {
    bytes.split_inclusive(|byte| *byte == b'\n').collect()
}

fn show_output(f: &mut fmt::Formatter, who: &str, lines: &[&[u8]], around: usize) -> fmt::Result {
    let (first, after) = match lines.len() <= SHOWN_LINES {
        true => (0, lines.len()),
        false => {
            let after = lines.len().min(around + LINES_AROUND);
            (around.saturating_sub(LINES_AROUND).min(after), after)
        }
    };
    writeln!(
        f,
        "output of the {who}, {} lines, from line {}:",
        lines.len(),
        first + 1
    )?;
    for line in &lines[first..after] {
        writeln!(f, "    {}", line.escape_ascii())?;
    }
    Ok(())
}

fn show_line(f: &mut fmt::Formatter, who: &str, line: Option<&&[u8]>) -> fmt::Result {
    match line {
        Some(line) => writeln!(f, "    {who}: {}", line.escape_ascii()),
        None => writeln!(f, "    {who}: nothing"),
    }
}

struct Hex<'a>(&'a [u8]);

impl fmt::Display for Hex<'_> {
    fn fmt(&self, f: &mut fmt::Formatter) -> fmt::Result {
        self.0.iter().try_for_each(|byte| write!(f, "{byte:02x}"))
    }
}
