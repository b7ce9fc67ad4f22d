//! A fuzz target for libFuzzer. The input is read as a whole packet, ours beside the rewrite's and
//! libopus's. Then its first byte chooses: a frame is read, or frames are written, finished and read back;
//! ours beside the crate's behind document 01's refusals. Every answer, field, pulse, byte and state is the
//! same, or the run aborts. At its end it prints how many calls there were.
#![no_main]

mod both;
mod reading;
mod source;
mod writing;

use both::Both;
use source::Source;
use std::sync::{Mutex, OnceLock};

fn both() -> &'static Mutex<Both> {
    static BOTH: OnceLock<Mutex<Both>> = OnceLock::new();
    BOTH.get_or_init(Mutex::default)
}

extern "C" fn show() {
    both().lock().unwrap().show();
}

extern "C" {
    fn atexit(call: extern "C" fn()) -> i32;
}

#[no_mangle]
pub extern "C" fn LLVMFuzzerInitialize(_: *mut i32, _: *mut *mut *mut i8) -> i32 {
    // SAFETY: a function of the C library that takes any function.
    unsafe { atexit(show) }
}

/// # Safety
/// libFuzzer hands over a pointer to as many bytes as it says.
#[no_mangle]
pub unsafe extern "C" fn LLVMFuzzerTestOneInput(data: *const u8, size: usize) -> i32 {
    let input = match size {
        0 => &[],
        _ => std::slice::from_raw_parts(data, size),
    };
    let (mut source, mut both) = (Source::new(input), both().lock().unwrap());
    both.packet(input);
    match source.byte() % 2 {
        0 => reading::frame(&mut both, source),
        _ => writing::frames(&mut both, source),
    }
    0
}
