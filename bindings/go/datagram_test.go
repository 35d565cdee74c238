package rtnlc_test

import (
	"bytes"
	"errors"
	"strings"
	"testing"

	"rtnl.invalid/rtnlc"
)

// An attribute at 32 that counts more bytes than are left.
var broken = joined(uint32(40), uint16(16), uint16(0), uint32(seq), uint32(port), linkHead,
	uint16(12), uint16(3), "lo\x00\x00")

func TestErrors(t *testing.T) {
	_, err := rtnlc.Parse(broken)
	if !errors.Is(err, rtnlc.ErrBadLength) || errors.Is(err, rtnlc.ErrCut) {
		t.Errorf("another error: %v", err)
	}
	var refused *rtnlc.Error
	if !errors.As(err, &refused) || refused.Place != 32 || !refused.HasPlace() {
		t.Errorf("another place: %v", err)
	}
	var code rtnlc.Code
	if !errors.As(err, &code) || code != rtnlc.ErrBadLength {
		t.Errorf("another code: %v", code)
	}
	equal(t, "text", err, "rtnlc: bad length at 32")
	equal(t, "text of a code", rtnlc.ErrBadLength, "rtnlc: bad length")
	equal(t, "words of a code", rtnlc.ErrTooLarge.String(), "too large")
	equal(t, "words of the last code", rtnlc.ErrNoSeed.String(), "no seed")
	_, err = rtnlc.Parse(make([]byte, 65540))
	equal(t, "no place", err, "rtnlc: too large")
}

// Each rule of a datagram, with the offset of the head that breaks it.
func TestFaults(t *testing.T) {
	deep := attr(1)
	for level := 0; level < 9; level++ {
		deep = attr(26|nested, deep)
	}
	for _, row := range []struct {
		name     string
		datagram []byte
		code     rtnlc.Code
		place    uint32
	}{
		{"cut", joined(done(0), uint32(16)), rtnlc.ErrCut, 20},
		{"bad length", broken, rtnlc.ErrBadLength, 32},
		{"short body", message(16, uint32(0)), rtnlc.ErrShortBody, 0},
		{"too long", link(1, joined(uint16(65533), uint16(26|nested), make([]byte, 65536))),
			rtnlc.ErrTooLong, 32},
		{"too deep", link(1, deep), rtnlc.ErrTooDeep, 32 + 4*8},
		{"too large", make([]byte, 131076), rtnlc.ErrTooLarge, 0},
	} {
		options := rtnlc.StandardOptions()
		options.Datagram = 131072
		tape := rtnlc.Tape{Options: &options}
		messages, parsed := tape.Parse(row.datagram)
		_, scanned := rtnlc.Scan(row.datagram, &options)
		_, checked := rtnlc.Check(row.datagram, &options)
		for _, err := range []error{parsed, scanned, checked} {
			var refused *rtnlc.Error
			if !errors.As(err, &refused) || *refused != (rtnlc.Error{Code: row.code, Place: row.place}) {
				t.Errorf("%s: %v", row.name, err)
			}
			equal(t, row.name+" has a place", refused.HasPlace(), row.code != rtnlc.ErrTooLarge)
		}
		equal(t, row.name, len(messages), 0)
	}
}

func TestOptions(t *testing.T) {
	wanted := rtnlc.Options{Total: 1073741824, Datagram: 65536, Entries: 4096, Depth: 8}
	equal(t, "standard", rtnlc.StandardOptions() == wanted, true)
	tape := rtnlc.Tape{Options: &rtnlc.Options{}}
	_, parsed := tape.Parse(done(0))
	_, scanned := rtnlc.Scan(done(0), &rtnlc.Options{})
	_, checked := rtnlc.Check(done(0), &rtnlc.Options{})
	_, shown := rtnlc.Show(1, done(0), &rtnlc.Options{})
	_, session := rtnlc.NewSession(&rtnlc.Options{})
	_, stream := rtnlc.NewStream(&rtnlc.Options{})
	for _, err := range []error{parsed, scanned, checked, shown, session, stream} {
		equal(t, "a limit", errors.Is(err, rtnlc.ErrBadLimit), true)
	}
}

func TestEmptyDatagram(t *testing.T) {
	for _, datagram := range [][]byte{nil, {}} {
		messages, err := rtnlc.Parse(datagram)
		equal(t, "messages", len(messages), 0)
		equal(t, "error", err, nil)
	}
}

func TestEvents(t *testing.T) {
	var tape rtnlc.Tape
	_, err := tape.Parse(joined(message(24, routeHead, attr(1|net, "\x0a\x01\x02\x00"),
		attr(9, hop(0, 0, 3, attr(5, "\x0a\x00\x00\x01")))), done(0)))
	equal(t, "error", err, nil)
	equal(t, "events", tape.Events(), "["+strings.Join([]string{
		"{0 40 24 0 0 false false [0 0]}", "{28 4 1 0 1 false true [0 0]}",
		"{36 16 9 0 3 false false [0 0]}", "{40 8 0 1 4 false false [0 0]}",
		"{48 4 5 2 1 false false [0 0]}", "{56 4 3 0 0 false false [0 0]}"}, " ")+"]")
	equal(t, "visits", tape.Visits(), 8+20+16+8)
	_, err = tape.Parse(broken)
	equal(t, "is refused", err != nil, true)
	equal(t, "before the fault", tape.Events(), "[{0 24 16 0 0 false false [0 0]}]")
}

func TestScan(t *testing.T) {
	visits, err := rtnlc.Scan(link(1, attr(18, attr(1, "vlan\x00"))), nil)
	equal(t, "error", err, nil)
	equal(t, "visits", visits, 16+12)
}

func TestCheck(t *testing.T) {
	whole := link(1, attr(3, "lo\x00"))
	canonical, err := rtnlc.Check(whole, nil)
	equal(t, "canonical", told(canonical, err == nil), true)
	whole[len(whole)-1] = 1
	canonical, err = rtnlc.Check(whole, nil)
	equal(t, "a padding that is not zero", told(canonical, err == nil), false)
}

func TestShow(t *testing.T) {
	text, err := rtnlc.Show(3, done(-1), nil)
	equal(t, "error", err, nil)
	equal(t, "text", text, "datagram 3 bytes 20\nmessage 3 done flags 0x0002 MULTI seq 7 port 4242\n"+
		"  done status -1 tail -\n")
	text, err = rtnlc.Show(1, broken, nil)
	equal(t, "error", err, nil)
	equal(t, "text", text, "datagram 1 bytes 40\nrefused bad length at 32\n")
	// Of an empty attribute there is far more text than bytes.
	many, err := rtnlc.Show(1, link(1, bytes.Repeat(attr(1), 1000)), nil)
	equal(t, "error", err, nil)
	equal(t, "lines", strings.Count(many, "\n    attr 1 ADDRESS - hex -"), 1000)
}

func TestRequest(t *testing.T) {
	request, err := rtnlc.Request(rtnlc.RTM_GETROUTE, rtnlc.AF_INET6, 5, nil)
	equal(t, "error", err, nil)
	equal(t, "bytes", request, joined(uint32(28), uint16(26), uint16(0x301), uint32(5), uint32(0),
		uint8(10), make([]byte, 11)))
	request, err = rtnlc.Request(rtnlc.RTM_NEWNEIGH, 0, 5, &rtnlc.Options{BigEndian: true})
	equal(t, "error", err, nil)
	equal(t, "front", request[:8], []byte("\x00\x00\x00\x1c\x00\x1e\x03\x01"))
}

// Once a tape has seen the longest datagram, nothing takes memory: neither reading, nor what views
// answer, but for strings.
func TestAllocations(t *testing.T) {
	datagram := joined(link(1, attr(4, uint32(1500)), attr(1, ether), attr(18, attr(2, "x"))),
		message(24, routeHead, attr(1, "\x0a\x01\x02\x00"), attr(18, uint16(10), ipv6),
			attr(9, hop(0, 0, 3, attr(5, "\x0a\x00\x00\x01")))))
	var tape rtnlc.Tape
	stream, err := rtnlc.NewStream(nil)
	if err == nil {
		_, err = stream.Begin(rtnlc.RTM_GETLINK, 0, seq, port)
	}
	if err != nil {
		t.Fatal(err)
	}
	equal(t, "allocations", testing.AllocsPerRun(100, func() {
		messages, _ := tape.Parse(datagram)
		for _, m := range messages {
			l, _ := m.Link()
			l.MTU()
			l.HardwareAddr()
			l.Kind()
			r, _ := m.Route()
			r.Dst()
			r.Gateway()
			for hops := r.NextHops(); hops.Next(); {
				hops.NextHop().Gateway()
			}
			for attrs := m.Attrs(); attrs.Next(); {
				attrs.Attr().Uint32()
			}
		}
		rtnlc.Scan(datagram, nil)
		rtnlc.Check(datagram, nil)
		stream.Feed(datagram)
		stream.Status()
	}), 0)
}
