//! The words of the command line.

use crate::rt::{Env, WORDS};
use std::ffi::OsString;
use std::io::{Error, ErrorKind, Result};

/// The words, the program's name first.
pub struct Args(std::vec::IntoIter<String>);

impl Iterator for Args {
    type Item = String;

    fn next(&mut self) -> Option<String> {
        self.0.next()
    }
}

/// The words; an error where one isn't text.
pub fn args<R: Env>(_rt: &R) -> Result<Args> {
    texts(WORDS.get().cloned().unwrap_or_default())
}

fn texts(words: Vec<OsString>) -> Result<Args> {
    match words.into_iter().map(OsString::into_string).collect::<std::result::Result<Vec<_>, _>>() {
        Ok(words) => Ok(Args(words.into_iter())),
        Err(_) => Err(Error::from(ErrorKind::InvalidData)),
    }
}

#[cfg(test)]
mod tests {
    use super::*;
    use std::os::unix::ffi::OsStringExt;

    #[test]
    fn words_that_are_not_text_are_an_error() {
        assert_eq!(texts(Vec::from(["a".into(), "b".into()])).unwrap().collect::<Vec<_>>(), ["a", "b"]);
        assert_eq!(texts(Vec::from([OsString::from_vec(Vec::from([0xff]))])).err().unwrap().kind(), ErrorKind::InvalidData);
    }
}
