//! A request that changes something, and the kernel's answer.

use super::{checked, send, Result, Source};
use rtnl::{Body, Incomplete, Tape};
use std::ffi::CString;
use std::os::raw::c_char;
use std::process;

extern "C" {
    fn if_nametoindex(name: *const c_char) -> u32;
}

impl Source {
    /// The sequence number of the next request.
    pub fn next_sequence(&mut self) -> u32 {
        self.sequence += 1;
        self.sequence
    }

    /// Sends the request that was built, and waits until the kernel says that it was done.
    pub fn change(&mut self, request: &[u8]) -> Result<()> {
        // SAFETY: pointer and length are those of one slice.
        checked(unsafe { send(self.fd, request.as_ptr(), request.len(), 0) })?;
        let (mut tape, own) = (Tape::new(), self.sequence);
        loop {
            let datagram = tape.read(self.receive()?.ok_or("the answer ended early")?)?;
            match datagram.messages().find(|it| it.sequence() == own).map(|it| it.body()) {
                Some(Body::Error(0)) => return Ok(()),
                Some(Body::Error(code)) => return Err(Incomplete::Refused(-code).into()),
                _ => {}
            }
        }
    }
}

/// Ends a program that was called wrongly.
pub fn misused(usage: &str) -> ! {
    eprintln!("usage: {usage}");
    process::exit(2)
}

/// The index of an interface of this name.
pub fn index_of(name: &str) -> Result<u32> {
    let text = CString::new(name)?;
    // SAFETY: the pointer is that of a text with a zero byte behind it.
    match unsafe { if_nametoindex(text.as_ptr()) } {
        0 => Err(format!("no interface {name}").into()),
        index => Ok(index),
    }
}
