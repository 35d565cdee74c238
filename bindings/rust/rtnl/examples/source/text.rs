//! How the programs write what they have read.

use std::{ffi::OsStr, fmt::Display, os::unix::ffi::OsStrExt};

/// The value, or a dash where it is missing.
pub fn or_dash<T: Display>(value: &Option<T>) -> &dyn Display {
    value.as_ref().map_or(&"-", |it| it)
}

/// A name, which may have any bytes: those that a terminal doesn't just print are written as `\x1b`.
pub fn plain(name: &OsStr) -> String {
    let write = |it: &u8| match *it {
        b'\\' | 0..=b' ' | 0x7f.. => format!("\\x{it:02x}"),
        it => char::from(it).to_string(),
    };
    name.as_bytes().iter().map(write).collect()
}
