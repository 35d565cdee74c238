//! Builds requests for routes by netlink-packet-route: the message of a request, its length and
//! its bytes in one buffer that stays.
//! usage: building one|two COUNT

use netlink_packet_route::rtnl::route::nlas::{NextHop, NextHopFlags, Nla};
use netlink_packet_route::{
    NetlinkMessage, RouteMessage, RtnlMessage, NLM_F_ACK, NLM_F_CREATE, NLM_F_EXCL, NLM_F_REQUEST,
};
use std::error::Error;

const ROOM: usize = 512;

fn hop(last: u8, index: u32) -> NextHop {
    NextHop {
        flags: NextHopFlags::RTNH_F_EMPTY,
        hops: 9,
        interface_id: index,
        nlas: vec![Nla::Gateway(vec![192, 0, 2, last])],
    }
}

fn request(number: u32, two: bool) -> NetlinkMessage<RtnlMessage> {
    let mut route = RouteMessage::default();
    route.header.address_family = 2;
    route.header.destination_prefix_length = 24;
    route.header.table = 254;
    route.header.protocol = 3;
    route.header.kind = 1;
    let to = (0x0a00_0000 + number.wrapping_mul(256)).to_be_bytes();
    route.nlas.push(Nla::Destination(to.to_vec()));
    // In the order in which ip(8) sends them.
    if two {
        route.nlas.push(Nla::Priority(number % 1024));
        route.nlas.push(Nla::MultiPath(vec![hop(254, 10), hop(253, 11)]));
    } else {
        route.nlas.push(Nla::Gateway(vec![192, 0, 2, 254]));
        route.nlas.push(Nla::Priority(number % 1024));
        route.nlas.push(Nla::Oif(10));
    }
    let mut message = NetlinkMessage::from(RtnlMessage::NewRoute(route));
    message.header.flags = NLM_F_REQUEST | NLM_F_ACK | NLM_F_CREATE | NLM_F_EXCL;
    message.header.sequence_number = number;
    message
}

fn main() -> Result<(), Box<dyn Error>> {
    let words: Vec<String> = std::env::args().collect();
    let [_, way, count] = words.as_slice() else {
        return Err("usage: building one|two COUNT".into());
    };
    let mut buffer = [0; ROOM];
    let mut sum: u64 = 0;
    for number in 0..count.parse::<u32>()? {
        let mut message = request(number, way == "two");
        message.finalize();
        let length = message.buffer_len();
        message.serialize(&mut buffer[..length]);
        let bytes = &buffer[..length];
        sum += length as u64 + u64::from(bytes[length - 1]) + u64::from(bytes[24]);
        if number == 0 {
            let digits: String = bytes.iter().map(|byte| format!("{byte:02x}")).collect();
            println!("{digits}");
        }
    }
    println!("{sum}");
    Ok(())
}
