//! The line of a link.

use crate::source::OrDash;
use rtnl::Link;
use std::ffi::OsStr;
use std::io::{self, Write};

pub fn print_link(out: &mut impl Write, link: &Link<'_>) -> io::Result<()> {
    let name = OrDash(link.name().map(OsStr::to_string_lossy));
    let state = OrDash(link.operational_state());
    let (mtu, address) = (OrDash(link.mtu()), OrDash(link.hardware_address()));
    writeln!(out, "{name} {state} {mtu} {address}")
}
