package rtnlc_test

import (
	"runtime"
	"strings"
	"testing"

	"rtnl.invalid/rtnlc"
)

// kept are the indexes and names of the links in a list.
func kept(list *rtnlc.List) string {
	var found []string
	for _, m := range list.Messages() {
		l, _ := m.Link()
		found = append(found, told(l.Index(), true), told(l.Name()))
	}
	return strings.Join(found, " ")
}

// What a dump's datagrams gave stays, when their buffer holds others and the stream goes on.
func TestList(t *testing.T) {
	stream, err := rtnlc.NewStream(nil)
	if err == nil {
		_, err = stream.Begin(rtnlc.RTM_GETLINK, 0, seq, port)
	}
	if err != nil {
		t.Fatal(err)
	}
	var list rtnlc.List
	buffer := make([]byte, 4096)
	for _, datagram := range [][]byte{
		joined(link(1, attr(3, "a\x00")), message(rtnlc.NLMSG_NOOP), link(2, attr(3, "bcde\x00"))),
		link(1, attr(3, "f\x00"), attr(18, attr(1, "veth"))), done(0),
	} {
		fed, err := stream.Feed(buffer[:copy(buffer, datagram)])
		equal(t, "error", err, nil)
		list.Append(fed.Messages...)
	}
	equal(t, "complete", stream.Status().Err(), nil)
	equal(t, "links", kept(&list), "1 a 2 bcde 1 f")
	count, bytes := list.Size()
	equal(t, "size", []int{count, bytes}, []int{3, 40 + 44 + 52})

	// Each is as its own datagram has it, to any depth.
	last := list.Messages()[2]
	equal(t, "header", last.Header(), "{52 16 2 7 4242}")
	l, _ := last.Link()
	equal(t, "kind", told(l.Kind()), "veth")
}

// A list is as a slice: what it answered stays while more is appended, and is appended to itself.
func TestListGrows(t *testing.T) {
	var list rtnlc.List
	list.Append(only(t, link(0, attr(3, "a"))))
	first := list.Messages()
	for at := uint32(1); at < 20000; at++ {
		list.Append(only(t, link(at, attr(3, "a"), attr(20, "0123456789abcdef"))))
	}
	list.Append(list.Messages()...)
	all := list.Messages()
	equal(t, "count", len(all), 40000)
	for at, m := range all {
		l, _ := m.Link()
		if name, _ := l.Name(); l.Index() != at%20000 || name != "a" {
			t.Fatalf("message %d is link %d %s", at, l.Index(), name)
		}
	}
	l, _ := first[0].Link()
	equal(t, "the first", told(l.Name()), "a")
}

// What a caller appends to the messages is the caller's, and not the list's.
func TestListMessages(t *testing.T) {
	var list rtnlc.List
	for at := uint32(0); at < 100; at++ {
		own := append(list.Messages(), rtnlc.Message{})
		list.Append(only(t, link(at)))
		equal(t, "the caller's", own[at].Header().Type, 0)
	}
}

// Messages that are as long as a datagram may be, and behind them short ones.
func TestListOfLongMessages(t *testing.T) {
	options := rtnlc.StandardOptions()
	options.Datagram = 1 << 20
	tape := rtnlc.Tape{Options: &options}
	long := link(1, []byte(strings.Repeat(string(attr(20, strings.Repeat("x", 65528))), 15)))
	var list rtnlc.List
	for _, datagram := range [][]byte{link(0), long, long, link(2)} {
		messages, err := tape.Parse(datagram)
		equal(t, "error", err, nil)
		list.Append(messages...)
	}
	equal(t, "links", kept(&list), "0 none 1 none 1 none 2 none")
	var lengths []int
	for attrs := list.Messages()[2].Attrs(); attrs.Next(); {
		lengths = append(lengths, len(attrs.Attr().Bytes()))
	}
	equal(t, "attributes", lengths, "["+strings.Repeat("65528 ", 14)+"65528]")
}

func TestListReset(t *testing.T) {
	var list rtnlc.List
	list.Reset()
	list.Append(only(t, link(1, attr(3, "a"))), rtnlc.Message{})
	equal(t, "with the zero message", kept(&list), "1 a 0 none")
	list.Reset()
	count, bytes := list.Size()
	equal(t, "size", []int{count, bytes}, []int{0, 0})
	equal(t, "links", kept(&list), "")
	list.Append(only(t, link(2, attr(3, "b"))))
	equal(t, "links", kept(&list), "2 b")
}

// Messages of both orders in one list.
func TestListOfOrders(t *testing.T) {
	options := rtnlc.StandardOptions()
	options.BigEndian = true
	tape := rtnlc.Tape{Options: &options}
	big, err := tape.Parse([]byte("\x00\x00\x00\x20\x00\x10\x00\x02" +
		"\x00\x00\x00\x07\x00\x00\x10\x92" +
		"\x00\x00\x00\x01\x00\x00\x00\x07\x00\x01\x10\x43\x00\x00\x00\x00"))
	equal(t, "error", err, nil)
	var list rtnlc.List
	list.Append(only(t, link(1)))
	list.Append(big...)
	list.Append(only(t, link(2)))
	equal(t, "links", kept(&list), "1 none 7 none 2 none")
}

// In memory that a list has from a dump before, another one takes none.
func TestListAllocations(t *testing.T) {
	var tape rtnlc.Tape
	long := attr(20, strings.Repeat("x", 40000))
	messages, err := tape.Parse(joined(link(1, attr(3, "a")), link(2, long)))
	equal(t, "error", err, nil)
	var list rtnlc.List
	fill := func() {
		list.Reset()
		for again := 0; again < 100; again++ {
			list.Append(messages...)
		}
	}
	fill()
	equal(t, "allocations", testing.AllocsPerRun(10, fill), 0)
}

// A list takes few blocks for many messages, not memory for each; and what it has copied it copies
// no more as it grows.
func TestListAllocationsOfGrowth(t *testing.T) {
	m := only(t, link(1, attr(3, "a")))
	found := testing.AllocsPerRun(5, func() {
		var list rtnlc.List
		for again := 0; again < 50000; again++ {
			list.Append(m)
		}
	})
	if found > 200 {
		t.Errorf("%v allocations for 50000 messages", found)
	}

	var list rtnlc.List
	var before, behind runtime.MemStats
	m = only(t, link(1, attr(20, strings.Repeat("x", 4000))))
	runtime.ReadMemStats(&before)
	for again := 0; again < 4000; again++ {
		list.Append(m)
	}
	runtime.ReadMemStats(&behind)
	_, bytes := list.Size()
	if taken := behind.TotalAlloc - before.TotalAlloc; taken > uint64(bytes)*3/2 {
		t.Errorf("%d bytes were taken for %d", taken, bytes)
	}
}
