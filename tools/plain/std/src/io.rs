//! Readers, writers and standard output.

use std::fmt::Arguments;
use std::fs::File;
use std::mem::ManuallyDrop;
use std::os::fd::FromRawFd;

pub use std::io::*;

/// Leave to print.
pub trait Print {}

impl Print for crate::rt::HostRuntime {}

impl<P: Print> Print for &P {}

/// Standard output with no list before it: each write is one of the system's.
pub struct Printer(ManuallyDrop<File>);

/// A writer to standard output.
pub fn writer<P: Print>(_to: &P) -> Printer {
    // SAFETY: descriptor 1 is the process's for as long as it runs, and is never closed here.
    Printer(ManuallyDrop::new(unsafe { File::from_raw_fd(1) }))
}

impl Write for Printer {
    fn write(&mut self, bytes: &[u8]) -> Result<usize> {
        self.0.write(bytes)
    }

    fn flush(&mut self) -> Result<()> {
        Ok(())
    }
}

/// What `println!(rt; ..)` does.
pub fn print_line<P: Print>(to: &P, text: Arguments<'_>) -> Result<()> {
    writer(to).write_all(format!("{text}\n").as_bytes())
}
