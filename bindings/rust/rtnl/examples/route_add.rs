//! Adds a route with one next hop or more, and waits for the kernel's acknowledgement.
//!
//! route_add PREFIX via ADDRESS dev DEV [via ADDRESS dev DEV].. [SOCKET]

mod source;

use rtnl::constants::*;
use rtnl::{NextHopHead, NextHopRequest, Operation, Order, Prefix, RouteRequest};
use source::{change::index_of, change::misused, Source};
use std::{env, net::IpAddr};

const USAGE: &str = "route_add PREFIX via ADDRESS dev DEV [via ADDRESS dev DEV].. [SOCKET]";

fn main() {
    run().unwrap_or_else(|error| source::fail("route_add", &*error))
}

fn run() -> source::Result<()> {
    let words: Vec<String> = env::args().skip(1).collect();
    let (to, words) = words.split_first().unwrap_or_else(|| misused(USAGE));
    let to = prefix_of(to).unwrap_or_else(|| misused(USAGE));
    let hops = words.chunks_exact(4);
    let path = match hops.remainder() {
        [] => None,
        [path] => Some(path.into()),
        _ => misused(USAGE),
    };
    let hops = hops.map(hop_of).collect::<source::Result<Vec<NextHopRequest>>>()?;
    if hops.is_empty() {
        misused(USAGE)
    }
    let mut source = Source::open(0, path)?;
    let (route, sequence) = (request_of(to, &hops), source.next_sequence());
    let mut buffer = [0; 4_096];
    source.change(route.put(Operation::Add, sequence, Order::NATIVE, &mut buffer)?)
}

fn request_of(to: Prefix, hops: &[NextHopRequest]) -> RouteRequest<'_> {
    let (table, protocol) = (RT_TABLE_MAIN, RTPROT_STATIC);
    let route = RouteRequest { table, protocol, route_type: RTN_UNICAST, ..RouteRequest::to(to) };
    match hops {
        [hop] => {
            let (gateway, out_interface) = (hop.gateway(), Some(hop.head().index));
            RouteRequest { gateway, out_interface, ..route }
        }
        next_hops => RouteRequest { next_hops, ..route },
    }
}

fn prefix_of(word: &str) -> Option<Prefix> {
    let (address, len) = word.split_once('/')?;
    let (address, len): (IpAddr, u8) = (address.parse().ok()?, len.parse().ok()?);
    let most = if address.is_ipv4() { 32 } else { 128 };
    (len <= most).then_some(Prefix { address, len })
}

fn hop_of(words: &[String]) -> source::Result<NextHopRequest> {
    match words {
        [via, gateway, dev, name] if via == "via" && dev == "dev" => {
            let gateway = gateway.parse().unwrap_or_else(|_| misused(USAGE));
            let head = NextHopHead { index: index_of(name)?, ..NextHopHead::default() };
            Ok(NextHopRequest::new(head, Some(gateway))?)
        }
        _ => misused(USAGE),
    }
}
