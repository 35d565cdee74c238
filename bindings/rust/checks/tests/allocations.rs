//! Counts what is taken from the allocator: nothing for a datagram, where a longer one came
//! before.

use checks::recordings;
use rtnl::constants::{AF_UNSPEC, IFLA_IFNAME, RTM_NEWLINK};
use rtnl::{Body, Builder, Family, Header, LinkHead, NextHopRequest, Operation, Options, Order};
use rtnl::{RouteRequest, Stream, Tape};
use std::alloc::{GlobalAlloc, Layout, System};
use std::sync::atomic::{AtomicUsize, Ordering};

/// The system's allocator, whose calls are counted.
struct Counting;

static TAKEN: AtomicUsize = AtomicUsize::new(0);

// SAFETY: all is done by the system's allocator.
unsafe impl GlobalAlloc for Counting {
    unsafe fn alloc(&self, layout: Layout) -> *mut u8 {
        TAKEN.fetch_add(1, Ordering::Relaxed);
        // SAFETY: as of the caller.
        unsafe { System.alloc(layout) }
    }

    unsafe fn dealloc(&self, at: *mut u8, layout: Layout) {
        // SAFETY: as of the caller.
        unsafe { System.dealloc(at, layout) }
    }
}

#[global_allocator]
static ALLOCATOR: Counting = Counting;

/// How often memory was taken while this ran.
fn taken(run: impl FnOnce()) -> usize {
    let before = TAKEN.load(Ordering::Relaxed);
    run();
    TAKEN.load(Ordering::Relaxed) - before
}

/// Asks a little of everything in a datagram.
fn read(tape: &mut Tape, bytes: &[u8]) -> usize {
    let mut found = 0;
    for message in tape.read(bytes).into_iter().flat_map(|it| it.messages()) {
        found += match message.body() {
            Body::Link(it) => it.name().map_or(0, |it| it.len()),
            Body::Route(it) => it.next_hops().filter(|it| it.gateway().is_some()).count(),
            Body::Neighbour(it) => it.link_layer_address().map_or(0, |it| it.as_bytes().len()),
            _ => message.attributes().iter().filter(|it| it.name().is_some()).count(),
        };
    }
    found
}

// One test alone: whatever runs at once would be counted.
#[test]
fn datagrams_take_no_memory() {
    let options = Options::new().order(Order::Little);
    let (datagrams, mut tape) = (recordings(), Tape::with_options(options));
    let mut stream = Stream::new(&options).unwrap();
    let whole = datagrams.iter().filter(|it| tape.clone().read(it).is_ok());
    let longest = whole.max_by_key(|it| it.len()).unwrap();
    assert!(taken(|| assert!(tape.read(longest).is_ok())) > 0);
    let own = taken(|| datagrams.iter().for_each(|it| assert!(read(&mut tape, it) < 100_000)));
    assert_eq!(own, 0);

    stream.begin(Family::Route, AF_UNSPEC, 1, u32::MAX).unwrap();
    assert!(taken(|| assert!(stream.feed(longest).is_ok())) > 0);
    let mut counts = [0; 2];
    let own = taken(|| {
        for bytes in &datagrams {
            counts[usize::from(stream.feed(bytes).is_ok())] += 1;
        }
    });
    assert_eq!(own, 0);
    assert!(counts.iter().all(|it| *it > 30), "{counts:?}");
    assert_eq!(taken(|| stream.abandon().unwrap()), 0);
    assert_eq!(taken(|| assert!(stream.begin(Family::Link, AF_UNSPEC, 2, 1).is_ok())), 0);

    let (mut buffer, head) = ([0; 128], LinkHead::default());
    let header = Header { message_type: RTM_NEWLINK, ..Header::default() };
    let own = taken(|| {
        let mut builder = Builder::new(&options, &mut buffer).unwrap();
        let put = builder.message(&header, &head, |it| it.put_text(IFLA_IFNAME, "eth0"));
        assert!(put.is_ok() && builder.finish().is_ok());
    });
    assert_eq!(own, 0);

    let own = taken(|| {
        let hops = [NextHopRequest::default(); 2];
        let route = RouteRequest { next_hops: &hops, ..RouteRequest::default() };
        assert!(route.put(Operation::Add, 1, Order::Little, &mut buffer).is_ok());
    });
    assert_eq!(own, 0);
}
