//! What is said of a whole datagram.

use crate::{version, Error, Options};
use rtnlc_sys::*;

/// Checks every head of a datagram, and keeps nothing: how many bytes of attributes were visited.
/// They are at most the depth limit plus one times the datagram's.
///
/// # Errors
///
/// As of [`Tape::read`](crate::Tape::read).
///
/// ```
/// use rtnl::{scan, Options, Order};
///
/// let done = [20, 0, 0, 0, 3, 0, 2, 0, 1, 0, 0, 0, 0, 0, 0, 0, 0, 0, 0, 0];
/// let options = Options::new().order(Order::Little);
/// assert_eq!(scan(&done, &options), Ok(0));
/// assert_eq!(scan(&done[..8], &options).unwrap_err().to_string(), "cut at 0");
/// ```
pub fn scan(bytes: &[u8], options: &Options) -> Result<u64, Error> {
    version::check()?;
    // SAFETY: `bytes` is a slice, and the options are a reference.
    let scanned = unsafe { rtnlc_scan(bytes.as_ptr(), bytes.len(), &options.raw) };
    match scanned.code {
        RTNLC_OK => Ok(scanned.visits),
        code => Err(Error::new(code, scanned.place)),
    }
}

/// How a datagram that keeps all rules is written.
#[derive(Clone, Copy, Debug, PartialEq, Eq, PartialOrd, Ord, Hash)]
pub enum Form {
    /// As its messages are written: every padding is whole and of zeros, and so is every byte of a
    /// head that is not kept.
    Canonical,
    /// Otherwise.
    Accepted,
}

/// Whether a datagram is written as its messages are.
///
/// # Errors
///
/// As of [`Tape::read`](crate::Tape::read), or [`Error::NoMemory`].
///
/// ```
/// use rtnl::{check, Form, Options, Order};
///
/// let done = [20, 0, 0, 0, 3, 0, 2, 0, 1, 0, 0, 0, 0, 0, 0, 0, 0, 0, 0, 0];
/// let options = Options::new().order(Order::Little);
/// assert_eq!(check(&done, &options)?, Form::Canonical);
/// # Ok::<(), rtnl::Error>(())
/// ```
pub fn check(bytes: &[u8], options: &Options) -> Result<Form, Error> {
    version::check()?;
    // SAFETY: `bytes` is a slice, and the options are a reference.
    let checked = unsafe { rtnlc_check(bytes.as_ptr(), bytes.len(), &options.raw) };
    match checked.code {
        RTNLC_OK if checked.canonical => Ok(Form::Canonical),
        RTNLC_OK => Ok(Form::Accepted),
        code => Err(Error::new(code, checked.place)),
    }
}

/// The text that `rtnl show` prints of a datagram of this number. A datagram that is refused has a
/// text too, which says why.
///
/// # Errors
///
/// [`Error::BadLimit`], [`Error::NoMemory`] or [`Error::Version`].
///
/// ```
/// use rtnl::{show, Options, Order};
///
/// let done = [20, 0, 0, 0, 3, 0, 2, 0, 1, 0, 0, 0, 0, 0, 0, 0, 0, 0, 0, 0];
/// assert!(show(1, &done, &Options::new().order(Order::Little))?.contains("done status 0"));
/// # Ok::<(), rtnl::Error>(())
/// ```
pub fn show(number: usize, bytes: &[u8], options: &Options) -> Result<String, Error> {
    version::check()?;
    let mut text: Vec<u8> = Vec::with_capacity(4_096);
    loop {
        let room = text.capacity();
        let out = text.as_mut_ptr().cast();
        let (from, len) = (bytes.as_ptr(), bytes.len());
        // SAFETY: `bytes` is a slice, and `out` points to a vector with so much room.
        let shown = unsafe { rtnlc_show(number, from, len, &options.raw, out, room) };
        if shown.code != RTNLC_OK {
            return Err(Error::new(shown.code, 0));
        }
        if shown.len <= room {
            // SAFETY: so many bytes were put.
            unsafe { text.set_len(shown.len) };
            // The text is of ASCII.
            return Ok(String::from_utf8_lossy(&text).into_owned());
        }
        text.reserve(shown.len);
    }
}
