//! Macros that take the runtime or an allocator first.

/// Prints to standard output: `print!(rt; "{x}")`.
#[macro_export]
macro_rules! print {
    ($rt:expr; $($said:tt)*) => {
        $crate::rt::Print::print(&$rt, ::std::format_args!($($said)*))
    };
}

/// Prints a line to standard output.
#[macro_export]
macro_rules! println {
    ($rt:expr; $($said:tt)*) => {
        $crate::rt::Print::println(&$rt, ::std::format_args!($($said)*))
    };
}

/// Prints to standard error.
#[macro_export]
macro_rules! eprint {
    ($rt:expr; $($said:tt)*) => {
        $crate::rt::Eprint::eprint(&$rt, ::std::format_args!($($said)*))
    };
}

/// Prints a line to standard error.
#[macro_export]
macro_rules! eprintln {
    ($rt:expr; $($said:tt)*) => {
        $crate::rt::Eprint::eprintln(&$rt, ::std::format_args!($($said)*))
    };
}

/// A text: `format!(in alloc; "{x}")?`.
#[macro_export]
macro_rules! format {
    (in $alloc:expr; $($said:tt)*) => {
        $crate::String::of_format($alloc, ::std::format_args!($($said)*))
    };
}

/// A list: `vec![in alloc; 1, 2]?`, `vec![in alloc; 0; n]?`.
#[macro_export]
macro_rules! vec {
    (in $alloc:expr; $item:expr; $count:expr) => {
        $crate::Vec::from_elem($alloc, $item, $count)
    };
    (in $alloc:expr; $($item:expr),* $(,)?) => {
        $crate::Vec::from_array($alloc, [$($item),*])
    };
}
