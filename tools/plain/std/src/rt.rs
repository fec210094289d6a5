//! The runtime that the program's first call is handed.

use crate::alloc::AllocGlobal;
use crate::fs::OpenOptions;
use crate::process::Ended;
use std::ffi::{CStr, OsStr, OsString, c_char};
use std::io;
use std::os::unix::ffi::OsStrExt;
use std::sync::OnceLock;

/// Stands for the system.
#[derive(Clone, Copy)]
pub struct HostRuntime;

impl AllocGlobal for HostRuntime {}

/// Leave to open files.
pub trait Files {
    type File: io::Read + io::Write;

    fn open_file(&self, options: &OpenOptions, path: &str) -> io::Result<Self::File>;
}

impl Files for HostRuntime {
    type File = std::fs::File;

    fn open_file(&self, options: &OpenOptions, path: &str) -> io::Result<std::fs::File> {
        options.0.open(path)
    }
}

/// Leave to read the command line.
pub trait Env {}

impl Env for HostRuntime {}

/// The words of the command line, once the program has started.
pub(crate) static WORDS: OnceLock<Vec<OsString>> = OnceLock::new();

/// Runs a program that the C runtime calls with these words, and answers its status.
pub fn started<E: Ended>(count: i32, words: *const *const c_char, begin: fn(HostRuntime) -> E) -> i32 {
    // SAFETY: the C runtime hands in so many words, each ended by a zero.
    let word = |at: usize| unsafe { CStr::from_ptr(*words.add(at)) };
    let all = (0..count as usize).map(|at| OsStr::from_bytes(word(at).to_bytes()).to_owned());
    let _ = WORDS.set(all.collect());
    begin(HostRuntime).status()
}
