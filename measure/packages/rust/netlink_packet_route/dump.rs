//! A dump by netlink-packet-route.

use crate::source::{Source, PORT};
use netlink_packet_route::{
    NetlinkMessage, NetlinkPayload, RtnlMessage, NLM_F_DUMP, NLM_F_DUMP_INTR, NLM_F_REQUEST,
};
use std::error::Error;
use std::io;

pub fn dump(
    source: &mut Source,
    seq: u32,
    request: RtnlMessage,
    mut each: impl FnMut(RtnlMessage) -> io::Result<()>,
) -> Result<(), Box<dyn Error>> {
    let mut message = NetlinkMessage::from(request);
    message.header.flags = NLM_F_REQUEST | NLM_F_DUMP;
    message.header.sequence_number = seq;
    message.finalize();
    let mut bytes = vec![0; message.buffer_len()];
    message.serialize(&mut bytes);
    source.send(&bytes)?;
    let mut interrupted = false;
    while let Some(mut rest) = source.receive()? {
        while !rest.is_empty() {
            let message = NetlinkMessage::<RtnlMessage>::deserialize(rest)?;
            let length = message.header.length as usize;
            rest = rest.get(length.next_multiple_of(4)..).unwrap_or_default();
            if message.header.sequence_number != seq || message.header.port_number != PORT {
                continue;
            }
            interrupted |= message.header.flags & NLM_F_DUMP_INTR != 0;
            match message.payload {
                NetlinkPayload::InnerMessage(item) => each(item)?,
                NetlinkPayload::Done if interrupted => return Err("interrupted".into()),
                NetlinkPayload::Done => return Ok(()),
                NetlinkPayload::Error(error) => return Err(error.to_io().into()),
                NetlinkPayload::Overrun(_) => return Err("lost datagrams".into()),
                _ => {}
            }
        }
    }
    Err("the answer ended early".into())
}
