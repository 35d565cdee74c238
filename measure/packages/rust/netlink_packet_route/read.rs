//! Reads each message of a recording's datagrams by netlink-packet-route, and lets it go.
//! usage: read PASSES < BINARY, where each datagram stands behind its size, four bytes, lowest
//! first, and is padded to four bytes.

use netlink_packet_route::{NetlinkMessage, RtnlMessage};
use std::error::Error;
use std::hint::black_box;
use std::io::{self, Read};

/// How many messages were read, and how many were refused.
#[derive(Default)]
struct Count {
    read: u64,
    refused: u64,
}

impl Count {
    fn add_datagram(&mut self, mut rest: &[u8]) -> Option<()> {
        while !rest.is_empty() {
            let length = first_number(rest)?;
            match NetlinkMessage::<RtnlMessage>::deserialize(rest.get(..length)?) {
                Ok(message) => {
                    black_box(&message);
                    self.read += 1;
                }
                Err(_) => self.refused += 1,
            }
            rest = rest.get(length.next_multiple_of(4)..).unwrap_or_default();
        }
        Some(())
    }
}

fn first_number(bytes: &[u8]) -> Option<usize> {
    let number = bytes.get(..4)?.try_into().ok()?;
    Some(u32::from_le_bytes(number) as usize)
}

fn pass(mut rest: &[u8], count: &mut Count) -> Option<()> {
    while !rest.is_empty() {
        let length = first_number(rest)?;
        count.add_datagram(rest.get(4..4 + length)?)?;
        rest = &rest[4 + length.next_multiple_of(4)..];
    }
    Some(())
}

fn main() -> Result<(), Box<dyn Error>> {
    let passes: u32 = std::env::args().nth(1).ok_or("how many passes?")?.parse()?;
    let mut bytes = Vec::new();
    io::stdin().read_to_end(&mut bytes)?;
    let mut count = Count::default();
    for _ in 0..passes {
        pass(&bytes, &mut count).ok_or("no datagrams")?;
    }
    println!("{} read, {} refused", count.read, count.refused);
    Ok(())
}
