//! The library's functions on slices. `crates/kaqsherim/kaqsherim.h` says what each answers.

use std::error;
use std::fmt;

/// The version that this file describes.
pub const VERSION: u32 = 1;

const BUFFER_TOO_SHORT: i64 = -1;
const NO_MEMORY: i64 = -2;

/// Why there is no report.
#[derive(Clone, Copy, Debug, PartialEq, Eq)]
pub enum Unwritten {
    BufferTooShort,
    NoMemory,
}

impl fmt::Display for Unwritten {
    fn fmt(&self, f: &mut fmt::Formatter<'_>) -> fmt::Result {
        f.write_str(match self {
            Unwritten::BufferTooShort => "the report is longer than the buffer",
            Unwritten::NoMemory => "not enough memory",
        })
    }
}

impl error::Error for Unwritten {}

#[link(name = "kaqsherim", kind = "static")]
#[link(name = "libc_c", kind = "static")]
unsafe extern "C" {
    safe fn kaqsherim_version() -> u32;
    fn kaqsherim_report_length(sheet: *const u8, sheet_length: usize) -> i64;
    fn kaqsherim_run_sheet(
        sheet: *const u8,
        sheet_length: usize,
        buffer: *mut u8,
        buffer_length: usize,
    ) -> i64;
}

pub fn version() -> u32 {
    kaqsherim_version()
}

/// How many bytes the report of the sheet has.
pub fn report_length(sheet: &[u8]) -> Result<usize, Unwritten> {
    // The pointer and the length are a slice's, and the library keeps neither.
    length_of(unsafe { kaqsherim_report_length(sheet.as_ptr(), sheet.len()) })
}

/// Runs the sheet and writes its report to the front of the buffer.
pub fn run_sheet(sheet: &[u8], buffer: &mut [u8]) -> Result<usize, Unwritten> {
    // As above; the buffer is lent to this call alone, so that it overlaps no sheet.
    length_of(unsafe {
        kaqsherim_run_sheet(
            sheet.as_ptr(),
            sheet.len(),
            buffer.as_mut_ptr(),
            buffer.len(),
        )
    })
}

/// Runs the sheet and gives its report.
pub fn report(sheet: &[u8]) -> Result<Vec<u8>, Unwritten> {
    let mut report = vec![0; report_length(sheet)?];
    run_sheet(sheet, &mut report)?;
    Ok(report)
}

fn length_of(answer: i64) -> Result<usize, Unwritten> {
    match answer {
        BUFFER_TOO_SHORT => Err(Unwritten::BufferTooShort),
        NO_MEMORY => Err(Unwritten::NoMemory),
        length => Ok(usize::try_from(length).expect("a length")),
    }
}
