//! How a program ends.

use std::fmt::Debug;

/// The status of a program.
#[derive(Debug, Clone, Copy)]
pub struct ExitCode(u8);

impl From<u8> for ExitCode {
    fn from(status: u8) -> Self {
        ExitCode(status)
    }
}

/// What the program's first call answers.
pub trait Ended {
    fn status(self) -> i32;
}

impl Ended for ExitCode {
    fn status(self) -> i32 {
        i32::from(self.0)
    }
}

impl<E: Debug> Ended for Result<ExitCode, E> {
    fn status(self) -> i32 {
        match self {
            Ok(code) => code.status(),
            Err(fault) => {
                eprintln!("Error: {fault:?}");
                1
            }
        }
    }
}

#[cfg(test)]
mod tests {
    use super::*;

    #[test]
    fn a_fault_has_the_status_1() {
        assert_eq!(ExitCode::from(9).status(), 9);
        assert_eq!((Ok::<_, ()>(ExitCode::from(2)).status(), Err::<ExitCode, _>("fault").status()), (2, 1));
    }
}
