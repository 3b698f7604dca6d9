//! The proved library: its nine C functions as declared in include/irga.h, and a safe
//! function over each. Slices and references meet what the header asks: no pointer is
//! NULL, and places that are written overlap no other.

use std::os::raw::c_double;

use crate::archive::{over_lent, UNWRITTEN};
use crate::file::{Outcome, Records};
use crate::recorder::{Drawn, Recorder};

extern "C" {
    fn irga_run(
        file: *const u8,
        file_length: usize,
        out: *mut u8,
        out_length: usize,
        written: *mut usize,
    ) -> u8;

    fn irga_lines(
        file: *const u8,
        file_length: usize,
        out: *mut u8,
        out_length: usize,
        written: *mut usize,
    ) -> u8;

    fn irga_page(
        file: *const u8,
        file_length: usize,
        header_every: u32,
        out: *mut u8,
        out_length: usize,
        written: *mut usize,
    ) -> u8;

    fn irga_grounds(
        file: *const u8,
        file_length: usize,
        out: *mut u8,
        out_length: usize,
        written: *mut usize,
    ) -> u8;

    fn irga_reading(
        answer: *const u8,
        answer_length: usize,
        wet: *mut c_double,
        dry: *mut c_double,
        signal: *mut c_double,
    ) -> u8;

    fn irga_area(answer: *const u8, answer_length: usize, area: *mut c_double) -> u8;

    fn irga_write(
        sheets: *const u8,
        sheets_length: usize,
        events: *const u8,
        events_length: usize,
        out: *mut u8,
        out_length: usize,
        written: *mut usize,
    ) -> u8;

    fn irga_pack(kind: u8, value: i64, low: i64, high: i64, channel: u32, word: *mut u16) -> u8;

    fn irga_unpack(kind: u8, word: u16, code: *mut i16, channel: *mut u8) -> u8;
}

/// Runs a lent file and writes the answers from the start of the lent output.
pub fn run(file: &[u8], output: &mut [u8]) -> Outcome {
    over_lent(irga_run, file, output)
}

/// Runs a lent file and writes the lines from the start of the lent output.
pub fn lines(file: &[u8], output: &mut [u8]) -> Outcome {
    over_lent(irga_lines, file, output)
}

/// Writes the page of a lent file from the start of the lent output.
#[allow(unsafe_code)]
pub fn page(file: &[u8], every: u32, output: &mut [u8]) -> Outcome {
    let mut written = UNWRITTEN;
    let (out, room) = (output.as_mut_ptr(), output.len());
    let status = unsafe { irga_page(file.as_ptr(), file.len(), every, out, room, &mut written) };
    Outcome { status, written }
}

/// Writes the grounds of a lent file from the start of the lent output, a byte for each event.
pub fn grounds(file: &[u8], output: &mut [u8]) -> Outcome {
    over_lent(irga_grounds, file, output)
}

/// Wet, dry and signal of a sample's answer.
#[allow(unsafe_code)]
pub fn reading(answer: &[u8], [wet, dry, signal]: &mut [f64; 3]) -> u8 {
    unsafe { irga_reading(answer.as_ptr(), answer.len(), wet, dry, signal) }
}

/// The area of an area's answer.
#[allow(unsafe_code)]
pub fn area(answer: &[u8], area: &mut f64) -> u8 {
    unsafe { irga_area(answer.as_ptr(), answer.len(), area) }
}

/// Writes records from the start of the lent output as a session file.
#[allow(unsafe_code)]
pub fn write(Records { sheets, events }: &Records, output: &mut [u8]) -> Outcome {
    let mut written = UNWRITTEN;
    let (out, room) = (output.as_mut_ptr(), output.len());
    let status = unsafe {
        irga_write(
            sheets.as_ptr(),
            sheets.len(),
            events.as_ptr(),
            events.len(),
            out,
            room,
            &mut written,
        )
    };
    Outcome { status, written }
}

/// The library's chart recorder.
pub struct Proved;

impl Recorder for Proved {
    #[allow(unsafe_code)]
    fn pack(&self, kind: u8, &Drawn { x, x0, xf, channel }: &Drawn, word: &mut u16) -> u8 {
        unsafe { irga_pack(kind, x, x0, xf, channel, word) }
    }

    #[allow(unsafe_code)]
    fn unpack(&self, kind: u8, word: u16, code: &mut i16, channel: &mut u8) -> u8 {
        unsafe { irga_unpack(kind, word, code, channel) }
    }
}
