//! The datagrams of a file, in place of a socket. Each stands behind its size, four bytes, lowest
//! first, and is padded to four bytes. Requests go nowhere. And where the lines go: with QUIET in
//! the environment nowhere, and nothing is made a text.
#![allow(dead_code)] // No program uses all of it.

use std::fmt::{self, Display};
use std::fs::File;
use std::hint::black_box;
use std::io::{self, BufReader, BufWriter, ErrorKind, Read, Write};
use std::os::fd::AsFd;

/// The port id that answers carry.
pub const PORT: u32 = 2;

pub struct Source {
    file: BufReader<File>,
    buffer: Vec<u8>,
}

impl Source {
    /// The file is the first argument of the program.
    pub fn open() -> io::Result<Source> {
        let path = std::env::args_os().nth(1).unwrap_or_default();
        Ok(Source { file: BufReader::new(File::open(path)?), buffer: vec![0; 65_536] })
    }

    pub fn send(&mut self, _request: &[u8]) -> io::Result<()> {
        Ok(())
    }

    /// The next datagram; none at the end.
    pub fn receive(&mut self) -> io::Result<Option<&[u8]>> {
        let mut size = [0; 4];
        match self.file.read_exact(&mut size) {
            Err(error) if error.kind() == ErrorKind::UnexpectedEof => return Ok(None),
            it => it?,
        }
        let size = u32::from_le_bytes(size) as usize;
        self.file.read_exact(&mut self.buffer[..size.next_multiple_of(4)])?;
        Ok(Some(&self.buffer[..size]))
    }
}

/// Where the lines go: standard output, or nowhere.
pub struct Out(Option<BufWriter<File>>);

impl Out {
    pub fn new() -> io::Result<Out> {
        let is_quiet = std::env::var_os("QUIET").is_some();
        let output = (!is_quiet).then(|| io::stdout().as_fd().try_clone_to_owned()).transpose()?;
        Ok(Out(output.map(|it| BufWriter::new(it.into()))))
    }
}

impl Write for Out {
    fn write(&mut self, bytes: &[u8]) -> io::Result<usize> {
        self.0.as_mut().map_or(Ok(bytes.len()), |out| out.write(bytes))
    }

    fn flush(&mut self) -> io::Result<()> {
        self.0.as_mut().map_or(Ok(()), Write::flush)
    }

    fn write_fmt(&mut self, line: fmt::Arguments<'_>) -> io::Result<()> {
        match &mut self.0 {
            Some(out) => out.write_fmt(line),
            None => {
                black_box(line);
                Ok(())
            }
        }
    }
}

/// A value, or a dash.
pub struct OrDash<T>(pub Option<T>);

impl<T: Display> Display for OrDash<T> {
    fn fmt(&self, f: &mut fmt::Formatter<'_>) -> fmt::Result {
        match &self.0 {
            Some(value) => value.fmt(f),
            None => f.write_str("-"),
        }
    }
}

/// Where a route leads: to a prefix, or everywhere.
pub enum Destination<T> {
    Default,
    Prefix(Option<T>),
}

impl<T: Display> Display for Destination<T> {
    fn fmt(&self, f: &mut fmt::Formatter<'_>) -> fmt::Result {
        match self {
            Destination::Default => f.write_str("default"),
            Destination::Prefix(Some(prefix)) => prefix.fmt(f),
            Destination::Prefix(None) => f.write_str("-"),
        }
    }
}
