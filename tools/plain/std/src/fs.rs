//! Files of the system.

use crate::rt::Files;
use std::io;

/// How a file is opened.
pub struct OpenOptions(pub(crate) std::fs::OpenOptions);

impl OpenOptions {
    pub fn new() -> Self {
        OpenOptions(std::fs::OpenOptions::new())
    }

    pub fn read(mut self, is_asked: bool) -> Self {
        self.0.read(is_asked);
        self
    }

    pub fn create(mut self, is_asked: bool) -> Self {
        self.0.create(is_asked);
        self
    }

    pub fn write(mut self, is_asked: bool) -> Self {
        self.0.write(is_asked);
        self
    }

    pub fn truncate(mut self, is_asked: bool) -> Self {
        self.0.truncate(is_asked);
        self
    }

    pub fn append(mut self, is_asked: bool) -> Self {
        self.0.append(is_asked);
        self
    }

    pub fn open<R: Files>(&self, files: &R, path: &str) -> io::Result<R::File> {
        files.open_file(self, path)
    }
}

/// Opens a file to read it.
pub fn open<R: Files>(files: &R, path: &str) -> io::Result<R::File> {
    OpenOptions::new().read(true).open(files, path)
}

#[cfg(test)]
mod tests {
    use super::*;
    use crate::rt::HostRuntime;
    use std::io::{ErrorKind, Read, Write};

    #[test]
    fn a_file_is_made_appended_to_and_read() {
        let path = std::env::temp_dir().join(format!("plain_std_{}", std::process::id()));
        let name = path.to_str().unwrap();
        assert_eq!(open(&HostRuntime, name).unwrap_err().kind(), ErrorKind::NotFound);
        for piece in [b"one", b"two"] {
            let mut file = OpenOptions::new().create(true).append(true).open(&HostRuntime, name).unwrap();
            file.write_all(piece).unwrap();
        }
        let mut text = String::new();
        open(&HostRuntime, name).unwrap().read_to_string(&mut text).unwrap();
        assert_eq!(text, "onetwo");
        let mut file = OpenOptions::new().create(true).write(true).truncate(true).open(&HostRuntime, name).unwrap();
        file.write_all(b"three").unwrap();
        assert_eq!(std::fs::read(&path).unwrap(), b"three");
        std::fs::remove_file(&path).unwrap();
    }
}
