//! The program `lanes`.
use std::ffi::OsString;
use std::process::ExitCode;
use std::thread;

/// A call of the library takes up to 1.5 MiB of stack.
const STACK: usize = 16 << 20;

/// The status of a program that panics.
const PANIC: u8 = 101;

fn main() -> ExitCode {
    let words: Vec<OsString> = std::env::args_os().skip(1).collect();
    match thread::Builder::new().stack_size(STACK).spawn(move || lanes::run(words)) {
        Ok(work) => ExitCode::from(work.join().unwrap_or(PANIC)),
        Err(e) => ExitCode::from(lanes::complain(&format!("no thread: {e}"))),
    }
}
