//! The product's three calls, from its static library. They are there where
//! the crate was built with `DUTY_LIB_DIR`.

/// Whether the product's library is linked in.
pub const LINKED: bool = cfg!(product);

#[cfg(product)]
mod exports {
    unsafe extern "C" {
        pub fn duty_rewrite(
            sheet: *const u8,
            sheet_len: usize,
            out: *mut u8,
            out_len: usize,
        ) -> usize;

        pub fn duty_verdict(
            sheet: *const u8,
            sheet_len: usize,
            out: *mut u8,
            out_len: usize,
        ) -> usize;

        pub fn duty_end(
            sheet: *const u8,
            sheet_len: usize,
            letters: *const u8,
            letters_len: usize,
            out: *mut u8,
            out_len: usize,
        ) -> usize;
    }
}

/// The calls take slices as pointer and length and keep no pointer, so a
/// borrow for the time of the call is enough.
#[cfg(product)]
mod calls {
    use super::exports;

    pub fn rewrite(sheet: &[u8], out: &mut [u8]) -> usize {
        unsafe { exports::duty_rewrite(sheet.as_ptr(), sheet.len(), out.as_mut_ptr(), out.len()) }
    }

    pub fn verdict(sheet: &[u8], out: &mut [u8]) -> usize {
        unsafe { exports::duty_verdict(sheet.as_ptr(), sheet.len(), out.as_mut_ptr(), out.len()) }
    }

    pub fn end(sheet: &[u8], letters: &[u8], out: &mut [u8]) -> usize {
        unsafe {
            exports::duty_end(
                sheet.as_ptr(),
                sheet.len(),
                letters.as_ptr(),
                letters.len(),
                out.as_mut_ptr(),
                out.len(),
            )
        }
    }
}

/// Stand-ins that are never called: see [`LINKED`].
#[cfg(not(product))]
mod calls {
    pub fn rewrite(_sheet: &[u8], _out: &mut [u8]) -> usize {
        unreachable!("the product is not linked in")
    }

    pub fn verdict(_sheet: &[u8], _out: &mut [u8]) -> usize {
        unreachable!("the product is not linked in")
    }

    pub fn end(_sheet: &[u8], _letters: &[u8], _out: &mut [u8]) -> usize {
        unreachable!("the product is not linked in")
    }
}

pub use calls::{end, rewrite, verdict};
