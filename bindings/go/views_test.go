package rtnlc_test

import (
	"strings"
	"testing"

	"rtnl.invalid/rtnlc"
)

var (
	ether = []byte{0x02, 0xfc, 0, 0, 0, 0x0a}
	// 2001:db8::7
	ipv6 = joined("\x20\x01\x0d\xb8", make([]byte, 11), uint8(7))
)

func linkTexts(m rtnlc.Message) []string {
	l, found := m.Link()
	return []string{
		told(l.Family(), found), told(l.Type(), found), told(l.Index(), found),
		told(l.Flags(), found), told(l.Name()), told(l.MTU()), told(l.HardwareAddr()),
		told(l.Master()), told(l.Kind()), told(l.OperState()),
	}
}

func addressTexts(m rtnlc.Message) []string {
	a, found := m.Address()
	return []string{
		told(a.Family(), found), told(a.Flags(), found), told(a.Scope(), found),
		told(a.Index(), found), told(a.Prefix()), told(a.Local()), told(a.Label()),
	}
}

func routeTexts(m rtnlc.Message) []string {
	r, found := m.Route()
	texts := []string{
		told(r.Family(), found), told(r.TOS(), found), told(r.Table(), found),
		told(r.Protocol(), found), told(r.Scope(), found), told(r.Type(), found),
		told(r.Flags(), found), told(r.IsDefault(), found), told(r.Dst()), told(r.Src()),
		told(r.Gateway()), told(r.OutIndex()), told(r.PrefSrc()), told(r.Priority()),
	}
	for hops := r.NextHops(); hops.Next(); {
		h := hops.NextHop()
		texts = append(texts, told(h.Flags(), true), told(h.Weight(), true), told(h.Index(), true),
			told(h.Gateway()))
	}
	return texts
}

func neighbourTexts(m rtnlc.Message) []string {
	n, found := m.Neighbour()
	return []string{
		told(n.Family(), found), told(n.Index(), found), told(n.State(), found),
		told(n.Flags(), found), told(n.Type(), found), told(n.Addr()), told(n.HardwareAddr()),
	}
}

func ruleTexts(m rtnlc.Message) []string {
	r, found := m.Rule()
	return []string{
		told(r.Family(), found), told(r.TOS(), found), told(r.Table(), found),
		told(r.Action(), found), told(r.Flags(), found), told(r.From()), told(r.To()),
		told(r.Priority()), told(r.Mark()), told(r.Mask()), told(r.InName()), told(r.OutName()),
	}
}

var views = map[string]func(rtnlc.Message) []string{
	"link": linkTexts, "address": addressTexts, "route": routeTexts, "neighbour": neighbourTexts,
	"rule": ruleTexts,
}

var (
	linkHead    = joined(uint8(0), uint8(0), uint16(1), uint32(7), uint32(0x11043), uint32(0))
	addressHead = joined(uint8(2), uint8(24), uint8(0x80), uint8(253), uint32(7))
	routeHead   = joined(uint8(2), uint8(24), uint8(16), uint8(4), uint8(254), uint8(3), uint8(0),
		uint8(1), uint32(4))
	route6Head = joined(uint8(10), uint8(128), uint8(0), uint8(0), uint8(255), uint8(2), uint8(253),
		uint8(2), uint32(0))
	neighbourHead = joined(uint8(2), uint8(0), uint16(0), uint32(7), uint16(0x80), uint8(2),
		uint8(1))
	ruleHead = joined(uint8(2), uint8(8), uint8(24), uint8(16), uint8(253), uint8(0), uint8(0),
		uint8(1), uint32(2))
)

// Each row is a datagram, and what its view is to say.
var rows = []struct {
	view, name string
	datagram   []byte
	wanted     string
}{
	{"link", "all that it can have", message(16, linkHead, attr(3, "eth0\x00"), attr(4, uint32(1500)),
		attr(1, ether), attr(10, uint32(9)), attr(18, attr(1, "vlan\x00")), attr(16, uint8(6))),
		"0 1 7 69699 eth0 1500 02:fc:00:00:00:0a 9 vlan UP"},
	{"link", "nothing", message(17, linkHead), "0 1 7 69699 none none none none none none"},
	{"link", "of another size", message(16, linkHead, attr(4, uint16(1500)), attr(1), attr(10),
		attr(18, attr(2, "x")), attr(16, uint16(6))),
		"0 1 7 69699 none none none none none none"},
	{"link", "no zero behind a name, and zeros inside", message(16, linkHead, attr(3, "lo"),
		attr(18, attr(1, "veth\x00\x00x"))), "0 1 7 69699 lo none none none veth none"},
	{"link", "the first counts", message(19, linkHead, attr(3, "a"), attr(3, "b"), attr(4, "x"),
		attr(4, uint32(1))), "0 1 7 69699 a none none none none none"},
	{"link", "lists where bytes should be", message(16, linkHead, attr(3|nested, attr(1, "a")),
		attr(4|nested), attr(1|nested, attr(1))), "0 1 7 69699 none none none none none none"},
	{"link", "numbers in network order", message(16, linkHead, attr(4|net, "\x00\x00\x05\xdc")),
		"0 1 7 69699 none 1500 none none none none"},
	{"link", "a state without a word", message(16, linkHead, attr(16, uint8(7))),
		"0 1 7 69699 none none none none none 7"},
	{"link", "a name in a list alone", message(16, linkHead, attr(26|nested, attr(3, "a"))),
		"0 1 7 69699 none none none none none none"},

	{"address", "all that it can have", message(20, addressHead, attr(1, "\x0a\x01\x02\x03"),
		attr(2, "\x0a\x01\x02\x04"), attr(3, "eth0:1\x00"), attr(8, uint32(0x280))),
		"2 640 253 7 10.1.2.3/24 10.1.2.4 eth0:1"},
	{"address", "nothing", message(21, addressHead), "2 128 253 7 none none none"},
	{"address", "of another size", message(20, addressHead, attr(1, "\x0a\x01\x02"), attr(2),
		attr(8, uint16(1))), "2 128 253 7 none none none"},
	{"address", "a length above its bits", message(20, uint8(2), uint8(33), uint16(0), uint32(7),
		attr(1, "\x0a\x01\x02\x03")), "2 0 0 7 none none none"},

	{"route", "all that it can have", message(24, routeHead, attr(1, "\x0a\x01\x02\x00"),
		attr(2, "\x0a\x02\x00\x00"), attr(5, "\x0a\x00\x00\x01"), attr(4, uint32(3)),
		attr(7, "\x0a\x00\x00\x09"), attr(6, uint32(100)), attr(15, uint32(1000))),
		"2 4 1000 3 0 1 4 false 10.1.2.0/24 10.2.0.0/16 10.0.0.1 3 10.0.0.9 100"},
	{"route", "nothing", message(25, routeHead),
		"2 4 254 3 0 1 4 false none none none none none none"},
	{"route", "to all addresses", message(24, make([]byte, 12)),
		"0 0 0 0 0 0 0 true none none none none none none"},
	{"route", "of IPv6", message(24, route6Head, attr(1, ipv6), attr(5, ipv6)),
		"10 0 255 2 253 2 0 false 2001:db8::7/128 none 2001:db8::7 none none none"},
	{"route", "by way of another family", message(24, routeHead, attr(18, uint16(10), ipv6)),
		"2 4 254 3 0 1 4 false none none 2001:db8::7 none none none"},
	{"route", "by way of no address",
		message(24, routeHead, attr(18, uint16(10), "\x0a\x00\x00\x01")),
		"2 4 254 3 0 1 4 false none none none none none none"},
	{"route", "by way of an address of another size", message(24, routeHead,
		attr(18, uint16(2), ipv6)), "2 4 254 3 0 1 4 false none none none none none none"},
	{"route", "a gateway before a way", message(24, routeHead, attr(18, uint16(10), ipv6),
		attr(5, "\x0a\x00\x00\x01")),
		"2 4 254 3 0 1 4 false none none 10.0.0.1 none none none"},
	{"route", "next hops", message(24, routeHead, attr(9, hop(0, 1, 3, attr(5, "\x0a\x00\x00\x01")),
		hop(4, 0, 0xffffffff, attr(22|nested, attr(5, "\x0a\x00\x00\x02")), attr(18, uint16(2),
			"\x0a\x00\x00\x03")), hop(1, 0, 5))),
		"2 4 254 3 0 1 4 false none none none none none none" +
			" 0 2 3 10.0.0.1 4 1 -1 10.0.0.3 1 1 5 none"},

	{"neighbour", "all that it can have", message(28, neighbourHead, attr(1, "\x0a\x00\x00\x01"),
		attr(2, ether)), "2 7 128 2 1 10.0.0.1 02:fc:00:00:00:0a"},
	{"neighbour", "nothing", message(29, neighbourHead), "2 7 128 2 1 none none"},
	{"neighbour", "of another size", message(28, neighbourHead, attr(1, "\x0a"), attr(2)),
		"2 7 128 2 1 none none"},

	{"rule", "all that it can have", message(32, ruleHead, attr(1, "\x0b\x00\x00\x00"),
		attr(2, "\x0a\x00\x01\x00"), attr(6, uint32(100)), attr(10, uint32(5)),
		attr(16, uint32(255)), attr(15, uint32(1000)), attr(3, "eth0\x00"), attr(17, "eth1\x00")),
		"2 16 1000 1 2 10.0.1.0/24 11.0.0.0/8 100 5 255 eth0 eth1"},
	{"rule", "nothing", message(33, ruleHead),
		"2 16 253 1 2 none none none none none none none"},
	{"rule", "of another size", message(32, ruleHead, attr(1), attr(2, ipv6, "x"),
		attr(6, uint8(1)), attr(15, uint16(1))),
		"2 16 253 1 2 none none none none none none none"},
}

func TestViews(t *testing.T) {
	for _, row := range rows {
		found := strings.Join(views[row.view](only(t, row.datagram)), " ")
		equal(t, row.view+": "+row.name, found, row.wanted)
	}
}

// A message is seen by the view of its type alone.
func TestViewsOfOtherMessages(t *testing.T) {
	for _, row := range rows {
		m := only(t, row.datagram)
		for name, view := range views {
			for _, text := range view(m) {
				if name != row.view && text != "none" {
					t.Errorf("%s as %s: %s", row.view, name, text)
				}
			}
		}
	}
	for _, messageType := range []uint16{0, 1, 18, 22, 23, 26, 27, 30, 31, 34, 35, 36, 65535} {
		m := only(t, message(messageType, make([]byte, 20)))
		for name, view := range views {
			if text := view(m)[0]; text != "none" {
				t.Errorf("%d as %s: %s", messageType, name, text)
			}
		}
	}
}

// swapped has each number of it in the other order: of the heads, and of the attributes that are
// numbers.
func TestBigEndian(t *testing.T) {
	datagram := []byte("\x00\x00\x00\x30\x00\x10\x00\x02\x00\x00\x00\x07\x00\x00\x10\x92" +
		"\x00\x00\x00\x01\x00\x00\x00\x07\x00\x01\x10\x43\x00\x00\x00\x00" +
		"\x00\x08\x00\x04\x00\x00\x05\xdc\x00\x07\x00\x03lo\x00\x00")
	options := rtnlc.StandardOptions()
	options.BigEndian = true
	tape := rtnlc.Tape{Options: &options}
	messages, err := tape.Parse(datagram)
	if err != nil || len(messages) != 1 {
		t.Fatal(messages, err)
	}
	equal(t, "header", messages[0].Header(), "{48 16 2 7 4242}")
	equal(t, "link", strings.Join(linkTexts(messages[0]), " "),
		"0 1 7 69699 lo 1500 none none none none")
	if _, err := rtnlc.Scan(datagram, nil); err == nil {
		t.Error("it is taken in the other order")
	}
}

// What is zero has nothing, and no call of it panics.
func TestZeroValues(t *testing.T) {
	var m rtnlc.Message
	for name, view := range views {
		for _, text := range view(m) {
			equal(t, name, text, "none")
		}
	}
	equal(t, "header", m.Header(), "{0 0 0 0 0}")
	equal(t, "body", len(m.Body()), 0)
	equal(t, "clone", m.Clone() == m, true)
	var a rtnlc.Attr
	equal(t, "number", a.Number(), 0)
	equal(t, "bytes", len(a.Bytes()), 0)
	for _, text := range []string{told(a.Uint8()), told(a.Uint16()), told(a.Uint32()),
		told(a.Uint64()), told(a.Text()), told(a.Addr()), told(a.HardwareAddr())} {
		equal(t, "attribute", text, "none")
	}
	attrs, hops := m.Attrs(), a.NextHops()
	equal(t, "next", attrs.Next() || hops.Next(), false)
	var h rtnlc.NextHop
	equal(t, "next hop", h.Index()+int(h.Flags())+h.Weight(), 1)
	_, found := h.Gateway()
	equal(t, "gateway", found, false)
}

func TestAttributes(t *testing.T) {
	m := only(t, message(24, routeHead, attr(6, uint32(5)), attr(30, uint16(1)), attr(20, uint8(2)),
		attr(40, uint32(1), uint32(2)), attr(8, attr(2, uint32(1400)), attr(16, "cubic")),
		attr(9, hop(0, 0, 1, attr(5, "abcd")))))
	var found []string
	for attrs := m.Attrs(); attrs.Next(); {
		a := attrs.Attr()
		found = append(found, told(a.Number(), true), told(len(a.Bytes()), true), told(a.Uint8()),
			told(a.Uint16()), told(a.Uint32()), told(a.Uint64()))
		for inner := a.Attrs(); inner.Next(); {
			found = append(found, "in", told(inner.Attr().Number(), true))
		}
	}
	equal(t, "attributes", strings.Join(found, " "), "6 4 none none 5 none"+
		" 30 2 none 1 none none 20 1 2 none none none 40 8 none none none 8589934593"+
		" 8 20 none none none none in 2 in 16 9 16 none none none none")
	metrics, _ := m.Find(rtnlc.RTA_METRICS)
	mtu, _ := metrics.Find(rtnlc.RTAX_MTU)
	equal(t, "in a list", told(mtu.Uint32()), "1400")
	hops, _ := m.Find(rtnlc.RTA_MULTIPATH)
	_, isFound := hops.Find(rtnlc.RTA_GATEWAY)
	equal(t, "an attribute of a next hop in the list", isFound, false)
	_, isFound = hops.Find(0)
	equal(t, "a next hop as an attribute", isFound, false)
	it := hops.NextHops()
	equal(t, "a next hop", it.Next(), true)
	gateway, _ := it.NextHop().Find(rtnlc.RTA_GATEWAY)
	equal(t, "in a next hop", told(gateway.Text()), "abcd")
}

// A clone stays when its tape goes on, and the caller's bytes are changed.
func TestClone(t *testing.T) {
	var tape rtnlc.Tape
	datagram := joined(link(1, attr(3, "first\x00")), link(2, attr(3, "second\x00")))
	messages, err := tape.Parse(datagram)
	if err != nil || len(messages) != 2 {
		t.Fatal(messages, err)
	}
	clone := messages[1].Clone()
	for at := range datagram {
		datagram[at] = 0xff
	}
	if _, err := tape.Parse(link(3)); err != nil {
		t.Fatal(err)
	}
	kept, isLink := clone.Link()
	equal(t, "link", isLink, true)
	equal(t, "index", kept.Index(), 2)
	equal(t, "name", told(kept.Name()), "second")
}

// An appended byte goes nowhere near the datagram.
func TestPayloadsAreClosed(t *testing.T) {
	m := only(t, link(1, attr(3, "a\x00"), attr(4, uint32(1500))))
	name, _ := m.Find(rtnlc.IFLA_IFNAME)
	_ = append(name.Bytes(), 0xff, 0xff, 0xff, 0xff, 0xff, 0xff, 0xff)
	view, _ := m.Link()
	equal(t, "mtu", told(view.MTU()), "1500")
}
