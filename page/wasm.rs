//! The program for the page: the subcommands that need no threads, over bytes in memory.

use cli_commands::{on_one_thread, Host, NoClock, Noted, Outcome};
use kit::alloc::Global;

/// What the last run printed: its output, and its errors.
static mut PRINTED: (Vec<u8>, Vec<u8>) = (Vec::new(), Vec::new());

/// Room for this many bytes, which `run` takes.
#[no_mangle]
pub extern "C" fn room(length: usize) -> *mut u8 {
    let mut bytes = vec![0; length];
    let at = bytes.as_mut_ptr();
    std::mem::forget(bytes);
    at
}

/// Runs a command line, one word a line, on an input. Both lie where `room` gave room for them. Gives the exit status.
#[no_mangle]
pub unsafe extern "C" fn run(words: *mut u8, words_length: usize, input: *mut u8, input_length: usize) -> u32 {
    let words = String::from_utf8_lossy(&Vec::from_raw_parts(words, words_length, words_length)).into_owned();
    let words: Vec<&str> = words.split('\n').collect();
    let input = Vec::from_raw_parts(input, input_length, input_length);
    let (mut out, mut errors) = (Noted::new(Vec::new()), Vec::new());
    let host = Host { alloc: Global, is_terminal: false, clock: &NoClock };
    let outcome = on_one_thread(&words, host, &mut input.as_slice(), &mut out, &mut errors);
    PRINTED = (out.stream, errors);
    match outcome {
        Outcome::Ended(status) => u32::from(status),
        Outcome::Run { .. } | Outcome::Sweep(_) => 255,
    }
}

#[no_mangle]
pub unsafe extern "C" fn output() -> *const u8 {
    PRINTED.0.as_ptr()
}

#[no_mangle]
pub unsafe extern "C" fn output_length() -> usize {
    PRINTED.0.len()
}

#[no_mangle]
pub unsafe extern "C" fn errors() -> *const u8 {
    PRINTED.1.as_ptr()
}

#[no_mangle]
pub unsafe extern "C" fn errors_length() -> usize {
    PRINTED.1.len()
}
