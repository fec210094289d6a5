//! The macros that differ from Rust's.

/// Writes a line to standard output, in one piece.
#[macro_export]
macro_rules! println {
    ($rt:expr; $($text:tt)*) => { $crate::io::print_line(&$rt, ::core::format_args!($($text)*)) };
}

/// A list of these elements, or of so many of one.
#[macro_export]
macro_rules! vec {
    (in $alloc:expr; $element:expr; $count:expr) => { $crate::vec::Vec::repeated($alloc, $element, $count) };
    (in $alloc:expr; $($element:expr),* $(,)?) => { $crate::vec::Vec::of($alloc, [$($element),*]) };
}

/// What is proved in Rattle is tested here.
#[macro_export]
macro_rules! prove {
    ($($condition:tt)*) => { ::core::assert!($($condition)*) };
}
