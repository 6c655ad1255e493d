//! The macros of Rattle's prelude. Used by erased files.

/// Formats a text into a new [`String`](crate::string::String): `format!(in alloc; "..", ..)`. The
/// value is a `Result` with the error `AllocError` if memory runs out.
#[macro_export]
macro_rules! format {
    (in $alloc:expr; $($part:tt)*) => {
        $crate::called_by_macros::formatted(
            $alloc,
            $crate::called_by_macros::format_args!($($part)*),
        )
    };
}

/// Makes a [`Vec`](crate::vec::Vec) of the given values, `vec![in alloc; a, b]`, or of copies of
/// one value, `vec![in alloc; value; count]`. The value of the macro is a `Result` with the error
/// `AllocError` if memory runs out.
#[macro_export]
macro_rules! vec {
    (in $alloc:expr; $value:expr; $count:expr) => {
        $crate::called_by_macros::repeated($alloc, $value, $count)
    };
    (in $alloc:expr; $($value:expr),* $(,)?) => {
        $crate::called_by_macros::listed($alloc, [$($value),*])
    };
}

/// Prints a line to the standard output of the system `rt`: `println!(rt; "..", ..)`. The value is
/// a `Result` with the error that the system reports.
#[macro_export]
macro_rules! println {
    ($rt:expr; $($part:tt)*) => {
        $crate::print!($rt; "{}\n", $crate::called_by_macros::format_args!($($part)*))
    };
}

/// Prints a text to the standard output of the system `rt`: `print!(rt; "..", ..)`. The value is a
/// `Result` with the error that the system reports.
#[macro_export]
macro_rules! print {
    ($rt:expr; $($part:tt)*) => {
        $crate::io::Write::write_fmt(
            &mut $crate::io::Print::stdout(&$rt),
            $crate::called_by_macros::format_args!($($part)*),
        )
    };
}

/// Prints a line to the standard error of the system `rt`: `eprintln!(rt; "..", ..)`. The value is
/// a `Result` with the error that the system reports.
#[macro_export]
macro_rules! eprintln {
    ($rt:expr; $($part:tt)*) => {
        $crate::eprint!($rt; "{}\n", $crate::called_by_macros::format_args!($($part)*))
    };
}

/// Prints a text to the standard error of the system `rt`: `eprint!(rt; "..", ..)`. The value is a
/// `Result` with the error that the system reports.
#[macro_export]
macro_rules! eprint {
    ($rt:expr; $($part:tt)*) => {
        $crate::io::Write::write_fmt(
            &mut $crate::io::Print::stderr(&$rt),
            $crate::called_by_macros::format_args!($($part)*),
        )
    };
}
