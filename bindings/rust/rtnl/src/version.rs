//! The version of the library, which must be that of this crate.

use crate::Error;
use std::ffi::CStr;
use std::fmt;
use std::sync::atomic::{AtomicBool, Ordering};

/// The version of `librtnlc` that is linked, as `0.3.0`, or `0.3.0+unproved`.
///
/// ```
/// assert!(rtnl::library_version().starts_with("0.3."));
/// ```
pub fn library_version() -> &'static str {
    // SAFETY: the library answers a string that is always there and never null.
    let version = unsafe { CStr::from_ptr(rtnlc_sys::rtnlc_version()) };
    version.to_str().unwrap_or("unknown")
}

/// Whether `librtnlc`, as it is linked, was made of what was proved. Else its version ends in
/// `+unproved`.
///
/// ```
/// assert_eq!(rtnl::library_proved(), !rtnl::library_version().ends_with("+unproved"));
/// ```
pub fn library_proved() -> bool {
    // SAFETY: the call takes nothing, and answers a bool.
    unsafe { rtnlc_sys::rtnlc_proved() }
}

/// Refuses a library of another version. It is compared once.
#[inline]
pub(crate) fn check() -> Result<(), Error> {
    static IS_OURS: AtomicBool = AtomicBool::new(false);
    if !IS_OURS.load(Ordering::Relaxed) {
        compare()?;
        IS_OURS.store(true, Ordering::Relaxed);
    }
    Ok(())
}

#[cold]
fn compare() -> Result<(), Error> {
    let is_ours = is_compatible(library_version(), rtnlc_sys::RTNLC_VERSION);
    is_ours.then_some(()).ok_or(Error::Version)
}

/// Whether both have the same number before the first dot, and where that is 0 also behind it.
fn is_compatible(found: &str, wanted: &str) -> bool {
    let count = if wanted.starts_with("0.") { 2 } else { 1 };
    found.split('.').take(count).eq(wanted.split('.').take(count))
}

pub(crate) fn fmt_mismatch(f: &mut fmt::Formatter<'_>) -> fmt::Result {
    let wanted = rtnlc_sys::RTNLC_VERSION;
    write!(f, "librtnlc is {}, and this program needs {wanted}: ", library_version())?;
    f.write_str("install it by ./install --library of rtnl, or from its package librtnlc0")
}

#[cfg(test)]
mod tests {
    use super::*;

    #[test]
    fn versions_of_one_minor_are_compatible() {
        for found in ["0.3.0", "0.3.1", "0.3"] {
            assert!(is_compatible(found, "0.3.0"), "{found}");
        }
        for found in ["0.2.9", "0.4.0", "1.3.0", "0.30.0", "0", "", "unknown"] {
            assert!(!is_compatible(found, "0.3.0"), "{found}");
        }
        assert!(is_compatible("1.4.2", "1.0.0"));
        assert!(!is_compatible("2.0.0", "1.0.0"));
    }

    #[test]
    fn the_crate_has_the_version_of_the_header() {
        assert!(is_compatible(env!("CARGO_PKG_VERSION"), rtnlc_sys::RTNLC_VERSION));
        assert_eq!(check(), Ok(()));
    }

    #[test]
    fn a_mismatch_says_how_to_install() {
        let text = Error::Version.to_string();
        assert!(
            text.contains("librtnlc is 0.3.") && text.contains("./install --library"),
            "{text}"
        );
    }
}
