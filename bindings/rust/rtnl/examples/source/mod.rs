//! What the programs beside it share: a socket, a dump over it, and how they end.
#![allow(dead_code)] // No program uses all of it.

pub mod change;
pub mod text;
use rtnl::{Family, Incomplete, MessageList, State, Stream};
use std::{error::Error, ffi::OsString, io, os::unix::ffi::OsStrExt, process};

pub type Result<T> = std::result::Result<T, Box<dyn Error>>;

/// The domains and types of two sorts of sockets: AF_UNIX, SOCK_SEQPACKET; AF_NETLINK, SOCK_RAW.
const UNIX: (u16, i32) = (1, 5);
const NETLINK: (u16, i32) = (16, 3);
const MSG_TRUNC: i32 = 0x20;
const EMSGSIZE: i32 = 90;
const ENOBUFS: i32 = 105;

/// `struct sockaddr_un`; or `struct sockaddr_nl`, its port in bytes 2 to 5, its groups behind it.
#[repr(C)]
struct Address(u16, [u8; 108]);

extern "C" {
    fn socket(domain: i32, kind: i32, protocol: i32) -> i32;
    fn bind(fd: i32, to: &Address, size: u32) -> i32;
    fn connect(fd: i32, to: &Address, size: u32) -> i32;
    fn getsockname(fd: i32, of: &mut Address, size: &mut u32) -> i32;
    fn send(fd: i32, from: *const u8, len: usize, how: i32) -> isize;
    fn recvfrom(fd: i32, to: *mut u8, len: usize, how: i32, a: &mut Address, s: &mut u32)
        -> isize;
}

fn checked(result: impl TryInto<usize>) -> io::Result<usize> {
    result.try_into().map_err(|_| io::Error::last_os_error())
}

/// A netlink socket, or a unix socket at whose other end a program plays the kernel.
pub struct Source {
    fd: i32,
    sequence: u32,
    port: [u8; 4],
    buffer: Vec<u8>,
}

impl Source {
    /// Joins groups, `RTMGRP_*`, or connects to the socket of this path.
    pub fn open(groups: u32, path: Option<OsString>) -> io::Result<Source> {
        let (domain, kind) = path.as_ref().map_or(NETLINK, |_| UNIX);
        let (mut to, mut own) = (Address(domain, [0; 108]), Address(0, [0; 108]));
        // SAFETY: each call is handed whole addresses, with their sizes.
        let fd = unsafe {
            let fd = checked(socket(domain.into(), kind, 0))? as i32;
            if let Some(path) = path {
                to.1.iter_mut().zip(path.as_bytes()).for_each(|(to, byte)| *to = *byte);
                checked(connect(fd, &to, 110))?;
            } else {
                to.1[6..10].copy_from_slice(&groups.to_ne_bytes());
                checked(bind(fd, &to, 12))?;
            }
            checked(getsockname(fd, &mut own, &mut 110))?; // A unix socket's leaves zeros.
            fd
        };
        let port = [own.1[2], own.1[3], own.1[4], own.1[5]];
        Ok(Source { fd, sequence: 0, port, buffer: vec![0; 65_536] })
    }

    /// The next datagram that the kernel has sent, or [`None`] where the socket has ended.
    pub fn receive(&mut self) -> io::Result<Option<&[u8]>> {
        loop {
            let (to, room) = (self.buffer.as_mut_ptr(), self.buffer.len());
            let (mut from, mut size) = (Address(0, [0; 108]), 110);
            // SAFETY: the pointers are those of a buffer and an address, with their sizes.
            let len = unsafe { recvfrom(self.fd, to, room, MSG_TRUNC, &mut from, &mut size) };
            match checked(len) {
                Err(error) if error.kind() == io::ErrorKind::Interrupted => {}
                Ok(_) if from.0 == NETLINK.0 && from.1[2..6] != [0; 4] => {}
                Ok(0) => return Ok(None),
                Ok(len) if len > room => return Err(io::Error::from_raw_os_error(EMSGSIZE)),
                other => return Ok(Some(&self.buffer[..other?])),
            }
        }
    }

    /// The entries of a dump, which is taken again where the kernel's table has changed meanwhile.
    pub fn dump(&mut self, by: &mut Stream, of: Family, family: u8) -> Result<MessageList> {
        let mut entries = MessageList::new();
        for _ in 0..=10 {
            self.sequence += 1;
            let request = by.begin(of, family, self.sequence, u32::from_ne_bytes(self.port))?;
            // SAFETY: pointer and length are those of one slice.
            checked(unsafe { send(self.fd, request.as_ptr(), request.len(), 0) })?;
            while by.status().state == State::Waiting {
                entries.extend(by.feed(self.receive()?.ok_or("the answer ended early")?)?);
            }
            match by.status().outcome() {
                Err(Incomplete::Interrupted) => entries.clear(),
                other => return other.map_err(Into::into).map(|()| entries),
            }
        }
        Err(Incomplete::Interrupted.into())
    }
}

/// Ends a program that has failed, with a line that says why.
pub fn fail(name: &str, error: &(dyn Error + 'static)) -> ! {
    let code = error.downcast_ref::<io::Error>().and_then(io::Error::raw_os_error);
    let (status, text) = match (error.downcast_ref(), error.downcast_ref(), code) {
        (Some(rtnl::Error::Broken(fault)), ..) => (1, format!("broken datagram: {fault}")),
        (_, Some(Incomplete::Refused(_)), _) => (3, format!("refused: {error}")),
        (.., Some(EMSGSIZE)) => (4, "cut datagram".into()),
        (_, Some(Incomplete::Overrun), _) | (.., Some(ENOBUFS)) => (5, "lost datagrams".into()),
        _ => (2, error.to_string()),
    };
    // In the words of strerror(3), without the number behind them.
    eprintln!("{name}: {}", text.split(" (os error").next().unwrap_or(&text));
    process::exit(status)
}
