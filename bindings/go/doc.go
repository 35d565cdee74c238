// SPDX-License-Identifier: MIT OR Apache-2.0

// Package rtnlc reads and builds rtnetlink datagrams, by way of the library for C of the same name,
// whose sources are proved.
//
// A datagram is bytes in memory: what one receive on a NETLINK_ROUTE socket gave. The package
// opens no socket. A datagram has exactly one reading, or is refused with the offset of its first
// fault:
//
//	var tape rtnlc.Tape
//	messages, err := tape.Parse(datagram)
//	for _, message := range messages {
//		if link, ok := message.Link(); ok {
//			name, _ := link.Name()
//			fmt.Println(link.Index(), name)
//		}
//	}
//
// # Dumps
//
// Who prints entries, or takes something out of each, as they come, has a Stream: it reads dumps
// of any length in constant space. Who wants a whole dump first appends what a Stream gives to a
// List, which keeps it in memory of Go that grows with it. Who wants each entry once, the last of
// a key, and never more of them than a bound, has a Session: it reads dumps into tables in memory
// of the library, which takes the most time of the three.
//
// A Session and a Stream make the request of a dump, are fed what the socket received, and say
// whether the dump was complete. One that the kernel interrupted is taken again from the start: a
// List is Reset, and the table of a Session is emptied by the next Begin.
//
// # Views
//
// Link, Address, Route, Neighbour and Rule are views of a message: small values that lie over the
// caller's bytes and copy nothing but strings. What a message doesn't have is answered by false,
// and so is an attribute whose payload has another size than its type, or holds attributes where
// it should hold bytes. Of a number the first attribute counts, where it stands twice.
//
// Views, messages and attributes are good until the Tape, Table or Stream that they came from goes
// on, and those of a List until its Reset; Message.Clone makes one that stays.
//
// # Requests
//
// A LinkRequest, an AddressRequest, a RouteRequest, a NeighbourRequest or a RuleRequest says what
// is to be changed, and its AppendTo appends the message that asks for it, as ip(8) sends it:
//
//	request := rtnlc.LinkRequest{Name: "eth0", Up: rtnlc.PointerTo(true)}
//	datagram, err := request.AppendTo(nil, rtnlc.Set, seq, nil)
//
// Where options are nil, as behind the sequence number here, the standard ones hold.
//
// A Builder puts any messages into a buffer of the caller's: a header and a head, attributes by
// their numbers, lists and next hops. What it hands out is never malformed. The first refusal
// sticks, and Finish answers it.
//
// Message.Errno is what the kernel answered: 0 where it acknowledges a request.
//
// # Errors
//
// What is refused is an *Error, which has a Code and the Place of the fault. Codes are errors too,
// and what a Builder answers and, with some words more, a ChangeRequest:
//
//	errors.Is(err, rtnlc.ErrCut)
//
// # Goroutines
//
// The functions of the package can be called by any goroutine. A Tape, a Session, a Stream, a
// List, a Table or a Builder is used by one at a time: a call of a Session or a Stream while
// another goroutine is in one answers ErrInUse, and of the others the race detector tells.
//
// None of these is copied once it was used: it panics where a copy is used, and go vet says where
// one is made.
package rtnlc
