//! Comparison by calls of the product's static library.

use twin::{calls, product};

use crate::coverage::{Runs, Sheets};
use crate::difference::{Difference, Failure};
use crate::letters;
use crate::random::Random;
use crate::sheets;

/// No line that the calls write is longer.
const LONGEST_LINE: usize = 64;

/// A sheet read and written again.
pub fn rewrite(random: &mut Random, coverage: &mut Sheets) -> Result<(), Failure> {
    let sheet = sheets::any(random);
    coverage.note(&sheet);
    agree(
        random,
        Call {
            name: "duty_rewrite",
            sheet: &sheet,
            letters: &[],
            roomy: sheet.len() + 40,
        },
        |out| product::rewrite(&sheet, out),
        |out| calls::rewrite(&sheet, out),
    )
}

/// The verdict on a sheet, or its refusal.
pub fn verdict(random: &mut Random, coverage: &mut Sheets) -> Result<(), Failure> {
    let sheet = sheets::any(random);
    coverage.note(&sheet);
    agree(
        random,
        Call {
            name: "duty_verdict",
            sheet: &sheet,
            letters: &[],
            roomy: LONGEST_LINE,
        },
        |out| product::verdict(&sheet, out),
        |out| calls::verdict(&sheet, out),
    )
}

/// The end line of a run.
pub fn end(random: &mut Random, coverage: &mut Runs) -> Result<(), Failure> {
    let sheet = sheets::any(random);
    let (least, most) = random.pick(&[(0, 3), (1, 30), (10, 100), (50, 500), (300, 2000)]);
    let count = random.between(least, most) as usize;
    let letters = letters::any(random, count);
    let call = Call {
        name: "duty_end",
        sheet: &sheet,
        letters: &letters,
        roomy: LONGEST_LINE,
    };
    coverage
        .note(&sheet, &letters)
        .map_err(|law| call.difference(format!("law of runs: {}", law.0), vec![], vec![]))?;
    agree(
        random,
        call,
        |out| product::end(&sheet, &letters, out),
        |out| calls::end(&sheet, &letters, out),
    )
}

/// A call whose answer goes into a lent buffer.
struct Call<'a> {
    name: &'static str,
    sheet: &'a [u8],
    letters: &'a [u8],
    /// A buffer of this length is longer than any answer.
    roomy: usize,
}

impl Call<'_> {
    fn difference(&self, detail: String, product: Vec<u8>, twin: Vec<u8>) -> Difference {
        Difference {
            call: format!("{}, {detail}", self.name),
            sheet: Some(self.sheet.to_vec()),
            letters: self.letters.to_vec(),
            product,
            twin,
        }
    }
}

/// Makes the call with a roomy buffer, one that just fits, one that is a byte
/// too short, and a shorter one. Whole buffers are compared, so that bytes
/// beyond the answer have to be unaltered.
fn agree(
    random: &mut Random,
    call: Call,
    by_product: impl Fn(&mut [u8]) -> usize,
    by_twin: impl Fn(&mut [u8]) -> usize,
) -> Result<(), Failure> {
    let background = random.byte();
    let mut of_product = vec![background; call.roomy];
    let mut of_twin = vec![background; call.roomy];
    let fitting = by_twin(&mut of_twin);
    of_twin.fill(background);
    let shorter = random.below(fitting + 1);
    for length in [call.roomy, fitting, fitting.saturating_sub(1), shorter] {
        let (product, twin) = (&mut of_product[..length], &mut of_twin[..length]);
        let (written_by_product, written_by_twin) = (by_product(product), by_twin(twin));
        if written_by_product != written_by_twin || product != twin {
            let detail = format!(
                "buffer of {length} bytes {background}: the product gives {written_by_product}, the twin {written_by_twin}"
            );
            return Err(call
                .difference(detail, product.to_vec(), twin.to_vec())
                .into());
        }
        product.fill(background);
        twin.fill(background);
    }
    Ok(())
}
