package rtnlc_test

import (
	"bytes"
	"encoding/hex"
	"errors"
	"fmt"
	"net/netip"
	"strings"
	"testing"

	"rtnl.invalid/rtnlc"
)

// adds are the flags by which ip(8) adds something.
const adds = rtnlc.NLM_F_REQUEST | rtnlc.NLM_F_ACK | rtnlc.NLM_F_CREATE | rtnlc.NLM_F_EXCL

var (
	addr   = netip.MustParseAddr
	prefix = netip.MustParsePrefix
)

// routeTo is the head of a route as ip(8) adds it.
func routeTo(dst string) rtnlc.RouteHead {
	head := rtnlc.RouteTo(prefix(dst))
	head.Table, head.Protocol = rtnlc.RT_TABLE_MAIN, rtnlc.RTPROT_BOOT
	head.Type = rtnlc.RTN_UNICAST
	return head
}

// built is a datagram of one message in hexadecimal, or why there is none.
func built(header rtnlc.Header, head rtnlc.Head, put func(*rtnlc.Builder)) string {
	b := rtnlc.NewBuilder(make([]byte, 512), nil)
	b.Begin(header, head)
	put(b)
	b.End()
	datagram, err := b.Finish()
	if err != nil {
		return err.Error()
	}
	return hex.EncodeToString(datagram)
}

func nothing(*rtnlc.Builder) {}

// putTwoWays puts what stands in the route of twoWays.
func putTwoWays(b *rtnlc.Builder) {
	b.PutAddr(rtnlc.RTA_DST, addr("10.10.0.0"))
	b.Open(rtnlc.RTA_MULTIPATH)
	b.OpenNextHop(rtnlc.NextHopHead{Weight: 2, Index: 10})
	b.PutAddr(rtnlc.RTA_GATEWAY, addr("192.0.2.254"))
	b.Close()
	b.OpenNextHop(rtnlc.NextHopHead{Weight: 256, Index: 11})
	b.Close()
	b.Close()
}

// twoWays is: route add 10.10.0.0/16 nexthop via 192.0.2.254 dev one weight 2 nexthop dev other
// weight 256
const twoWays = `4000000018000506000000000000000002100000fe03000100000000080001000a0a0000
	1c000900100000010a00000008000500c00002fe080000ff0b000000`

// What ip(8) of iproute2-6.1.0 sends, where the interface `one` is 10.
var sends = []struct {
	words    string
	kind     uint16
	flags    uint16
	head     rtnlc.Head
	put      func(*rtnlc.Builder)
	expected string
}{
	{"link set dev one up", rtnlc.RTM_NEWLINK, rtnlc.NLM_F_REQUEST | rtnlc.NLM_F_ACK,
		rtnlc.LinkHead{Index: 10, Flags: rtnlc.IFF_UP, Change: rtnlc.IFF_UP}, nothing,
		"20000000100005000000000000000000000000000a0000000100000001000000"},
	{"link add link one name one.5 type vlan id 5", rtnlc.RTM_NEWLINK, adds, rtnlc.LinkHead{},
		func(b *rtnlc.Builder) {
			b.PutUint32(rtnlc.IFLA_LINK, 10)
			b.PutText(rtnlc.IFLA_IFNAME, "one.5")
			b.Open(rtnlc.IFLA_LINKINFO)
			// No zero byte stands behind this text.
			b.Put(rtnlc.IFLA_INFO_KIND, []byte("vlan"))
			// It has no flag that says that it is a list: IFLA_VLAN_ID, 5.
			b.Put(rtnlc.IFLA_INFO_DATA, []byte{6, 0, 1, 0, 5, 0, 0, 0})
			b.Close()
		},
		`4c00000010000506000000000000000000000000000000000000000000000000080005000a000000
		0a0003006f6e652e350000001800120008000100766c616e0c0002000600010005000000`},
	{"address add 192.0.2.11/24 broadcast 192.0.2.255 dev one", rtnlc.RTM_NEWADDR, adds,
		rtnlc.AddressOn(prefix("192.0.2.11/24"), 10),
		func(b *rtnlc.Builder) {
			b.PutAddr(rtnlc.IFA_LOCAL, addr("192.0.2.11"))
			b.PutAddr(rtnlc.IFA_BROADCAST, addr("192.0.2.255"))
			b.PutAddr(rtnlc.IFA_ADDRESS, addr("192.0.2.11"))
		},
		`30000000140005060000000000000000021800000a00000008000200c000020b
		08000400c00002ff08000100c000020b`},
	{"route add 10.7.0.0/16 via 192.0.2.254 mtu 1400 advmss 1360", rtnlc.RTM_NEWROUTE, adds,
		routeTo("10.7.0.0/16"),
		func(b *rtnlc.Builder) {
			b.PutAddr(rtnlc.RTA_DST, addr("10.7.0.0"))
			b.PutAddr(rtnlc.RTA_GATEWAY, addr("192.0.2.254"))
			b.Open(rtnlc.RTA_METRICS)
			b.PutUint32(rtnlc.RTAX_MTU, 1400)
			b.PutUint32(rtnlc.RTAX_ADVMSS, 1360)
			b.Close()
		},
		`4000000018000506000000000000000002100000fe03000100000000080001000a070000
		08000500c00002fe1400080008000200780500000800080050050000`},
	{"route add 10.15.0.0/16 via inet6 2001:db8::fe dev one", rtnlc.RTM_NEWROUTE, adds,
		routeTo("10.15.0.0/16"),
		func(b *rtnlc.Builder) {
			b.PutAddr(rtnlc.RTA_DST, addr("10.15.0.0"))
			b.PutVia(rtnlc.RTA_VIA, addr("2001:db8::fe"))
			b.PutUint32(rtnlc.RTA_OIF, 10)
		},
		`4400000018000506000000000000000002100000fe03000100000000080001000a0f0000
		160012000a0020010db80000000000000000000000fe0000080004000a000000`},
	{"two ways", rtnlc.RTM_NEWROUTE, adds, routeTo("10.10.0.0/16"), putTwoWays, twoWays},
	{"route add 2001:db8:10::/48 via 2001:db8::fe", rtnlc.RTM_NEWROUTE, adds,
		routeTo("2001:db8:10::/48"),
		func(b *rtnlc.Builder) {
			b.PutAddr(rtnlc.RTA_DST, addr("2001:db8:10::"))
			b.PutAddr(rtnlc.RTA_GATEWAY, addr("2001:db8::fe"))
		},
		`440000001800050600000000000000000a300000fe030001000000001400010020010db8001000000000
		0000000000001400050020010db80000000000000000000000fe`},
	{"neighbour add 2001:db8::20 lladdr 02:00:00:00:00:20 dev one router", rtnlc.RTM_NEWNEIGH, adds,
		rtnlc.NeighbourHead{Family: rtnlc.AF_INET6, Index: 10, State: rtnlc.NUD_PERMANENT,
			Flags: rtnlc.NTF_ROUTER},
		func(b *rtnlc.Builder) {
			b.PutAddr(rtnlc.NDA_DST, addr("2001:db8::20"))
			b.Put(rtnlc.NDA_LLADDR, []byte{2, 0, 0, 0, 0, 0x20})
		},
		`3c0000001c00050600000000000000000a0000000a00000080008000
		1400010020010db80000000000000000000000200a0002000200000000200000`},
	{"rule add from 192.0.2.0/24 to 198.51.100.0/24 table 1000 priority 100", rtnlc.RTM_NEWRULE,
		adds, rtnlc.RuleHead{Family: rtnlc.AF_INET, DstLen: 24, SrcLen: 24,
			Action: rtnlc.FR_ACT_TO_TBL},
		func(b *rtnlc.Builder) {
			b.PutAddr(rtnlc.FRA_SRC, addr("192.0.2.0"))
			b.PutAddr(rtnlc.FRA_DST, addr("198.51.100.0"))
			b.PutUint32(rtnlc.FRA_TABLE, 1000)
			b.PutUint32(rtnlc.FRA_PRIORITY, 100)
		},
		`3c00000020000506000000000000000002181800000000010000000008000200c0000200
		08000100c633640008000f00e80300000800060064000000`},
}

// digits are those of a text with blanks.
func digits(text string) string { return strings.Join(strings.Fields(text), "") }

func TestBuilderSendsWhatIPSends(t *testing.T) {
	for _, it := range sends {
		header := rtnlc.Header{Type: it.kind, Flags: it.flags}
		equal(t, it.words, built(header, it.head, it.put), digits(it.expected))
	}
}

func TestBuilderHeads(t *testing.T) {
	for _, it := range []struct {
		kind     uint16
		head     rtnlc.Head
		expected string
	}{
		{rtnlc.RTM_SETLINK, rtnlc.LinkHead{1, 0x302, 0x7060504, 0xb0a0908, 0xf0e0d0c},
			"010002030405060708090a0b0c0d0e0f"},
		{rtnlc.RTM_DELADDR, rtnlc.AddressHead{1, 2, 3, 4, 0x8070605}, "0102030405060708"},
		{rtnlc.RTM_DELROUTE, rtnlc.RouteHead{1, 2, 3, 4, 5, 6, 7, 8, 0xc0b0a09},
			"0102030405060708090a0b0c"},
		{rtnlc.RTM_DELNEIGH, rtnlc.NeighbourHead{1, 0x5040302, 0x706, 8, 9},
			"010000000203040506070809"},
		{rtnlc.RTM_DELRULE, rtnlc.RuleHead{1, 2, 3, 4, 5, 6, 0xa090807},
			"01020304050000060708090a"},
	} {
		found := built(rtnlc.Header{Type: it.kind}, it.head, nothing)
		equal(t, fmt.Sprintf("%T", it.head), found[32:], it.expected)
	}
	equal(t, "no prefix", rtnlc.RouteTo(netip.Prefix{}), rtnlc.RouteHead{})
	equal(t, "no prefix", rtnlc.AddressOn(netip.Prefix{}, 1), rtnlc.AddressHead{Index: 1})
}

// putNumbers puts a number of each size, in attributes that have no meaning.
func putNumbers(b *rtnlc.Builder) {
	b.PutUint8(200, 0x12)
	b.PutUint16(201, 0x1234)
	b.PutUint32(202, 0x12345678)
	b.PutUint64(203, 0x123456789abcdef0)
	b.PutBE16(204|rtnlc.NLA_F_NET_BYTEORDER, 0x1234)
	b.PutBE32(205|rtnlc.NLA_F_NET_BYTEORDER, 0x12345678)
	b.PutBE64(206|rtnlc.NLA_F_NET_BYTEORDER, 0x123456789abcdef0)
	b.Open(207 | rtnlc.NLA_F_NESTED)
	b.PutText(1, "")
	b.Close()
}

func TestBuilderNumbers(t *testing.T) {
	found := built(rtnlc.Header{Type: rtnlc.RTM_NEWLINK}, rtnlc.LinkHead{}, putNumbers)
	equal(t, "the lowest byte first", found[64:], digits(`0500c80012000000 0600c90034120000
		0800ca0078563412 0c00cb00f0debc9a78563412 0600cc4012340000 0800cd4012345678
		0c00ce40123456789abcdef0 0c00cf80 0500010000000000`))

	options := rtnlc.StandardOptions()
	options.BigEndian = true
	b := rtnlc.NewBuilder(make([]byte, 256), &options)
	b.Begin(rtnlc.Header{Type: rtnlc.RTM_NEWLINK, Flags: 5, Seq: 0x1020304, Port: 0x5060708},
		rtnlc.LinkHead{Type: 0x102, Index: 3})
	putNumbers(b)
	b.End()
	datagram, err := b.Finish()
	equal(t, "error", err, nil)
	equal(t, "the highest byte first", hex.EncodeToString(datagram), digits(`
		0000006c 0010 0005 01020304 05060708 00000102 00000003 00000000 00000000
		000500c812000000 000600c912340000 000800ca12345678 000c00cb123456789abcdef0
		000640cc12340000 000840cd12345678 000c40ce123456789abcdef0 000c80cf 0005000100000000`))
}

func TestBuilderMessages(t *testing.T) {
	b := rtnlc.NewBuilder(make([]byte, 512), nil)
	datagram, err := b.Finish()
	equal(t, "nothing", []any{len(datagram), err}, "[0 <nil>]")
	b.Begin(rtnlc.Header{Type: rtnlc.RTM_NEWROUTE}, routeTo("10.10.0.0/16"))
	putTwoWays(b)
	b.End()
	datagram, err = b.Finish()
	equal(t, "one", []any{len(datagram), err}, "[64 <nil>]")
	b.Begin(rtnlc.Header{Type: rtnlc.RTM_NEWLINK}, rtnlc.LinkHead{Index: 7})
	b.PutText(rtnlc.IFLA_IFNAME, "eth0")
	b.End()
	datagram, err = b.Finish()
	equal(t, "error", err, nil)
	canonical, err := rtnlc.Check(datagram, nil)
	equal(t, "canonical", []any{canonical, err}, "[true <nil>]")
	messages, err := rtnlc.Parse(datagram)
	if err != nil || len(messages) != 2 {
		t.Fatal(messages, err)
	}
	route, _ := messages[0].Route()
	equal(t, "destination", told(route.Dst()), "10.10.0.0/16")
	hops := route.NextHops()
	for _, wanted := range []string{"2 10 192.0.2.254", "256 11 none"} {
		equal(t, "a next hop", hops.Next(), true)
		hop := hops.NextHop()
		equal(t, "it", fmt.Sprint(hop.Weight(), hop.Index(), " ", told(hop.Gateway())), wanted)
	}
	link, _ := messages[1].Link()
	equal(t, "name", []any{link.Index(), told(link.Name())}, "[7 eth0]")
}

func TestBuilderRooms(t *testing.T) {
	whole := len(digits(twoWays)) / 2
	for room := 0; room <= whole+4; room++ {
		buffer := bytes.Repeat([]byte{0xaa}, whole+8)
		b := rtnlc.NewBuilder(buffer[:room:room], nil)
		b.Begin(rtnlc.Header{Type: rtnlc.RTM_NEWROUTE}, routeTo("10.10.0.0/16"))
		putTwoWays(b)
		b.End()
		datagram, err := b.Finish()
		if room < whole && !(len(datagram) == 0 && errors.Is(err, rtnlc.ErrNoRoom)) ||
			room >= whole && !(len(datagram) == whole && err == nil) {
			t.Errorf("of %d bytes: %d, %v", room, len(datagram), err)
		}
		for at, it := range buffer {
			if at >= room && it != 0xaa {
				t.Errorf("of %d bytes: byte %d is written", room, at)
			}
		}
	}
}

// refuses says that what is put behind the head of a route is refused so, and that the refusal
// sticks until a Reset.
func refuses(t *testing.T, code rtnlc.Code, change func(*rtnlc.Options),
	put func(*rtnlc.Builder)) {
	t.Helper()
	options := rtnlc.StandardOptions()
	change(&options)
	b := rtnlc.NewBuilder(make([]byte, 200000), &options)
	b.Begin(rtnlc.Header{Type: rtnlc.RTM_NEWROUTE}, routeTo("10.0.0.0/8"))
	equal(t, "begun", b.Err(), nil)
	put(b)
	for _, call := range []func(){b.Close, b.End, func() { b.PutUint32(rtnlc.RTA_OIF, 1) }} {
		call()
		datagram, err := b.Finish()
		if err != code || b.Err() != code || datagram != nil {
			t.Errorf("%v: %v, %v, %v", code, datagram, err, b.Err())
		}
	}
	b.Reset()
	b.Begin(rtnlc.Header{Type: rtnlc.RTM_NEWROUTE}, routeTo("10.0.0.0/8"))
	b.End()
	datagram, err := b.Finish()
	equal(t, "behind a reset", []any{len(datagram), err}, "[28 <nil>]")
}

func standard(*rtnlc.Options) {}

func TestBuilderRefusals(t *testing.T) {
	header := rtnlc.Header{Type: rtnlc.RTM_NEWROUTE}
	refuses(t, rtnlc.ErrMismatch, standard,
		func(b *rtnlc.Builder) { b.Put(rtnlc.RTA_METRICS, make([]byte, 4)) })
	refuses(t, rtnlc.ErrMismatch, standard,
		func(b *rtnlc.Builder) { b.PutUint8(99|rtnlc.NLA_F_NESTED, 1) })
	refuses(t, rtnlc.ErrMismatch, standard, func(b *rtnlc.Builder) { b.Open(rtnlc.RTA_DST) })
	refuses(t, rtnlc.ErrMismatch, standard,
		func(b *rtnlc.Builder) { b.OpenNextHop(rtnlc.NextHopHead{}) })
	refuses(t, rtnlc.ErrMismatch, standard,
		func(b *rtnlc.Builder) { b.PutAddr(rtnlc.RTA_DST, netip.Addr{}) })
	refuses(t, rtnlc.ErrMismatch, standard,
		func(b *rtnlc.Builder) { b.PutVia(rtnlc.RTA_VIA, netip.Addr{}) })
	refuses(t, rtnlc.ErrMismatch, standard, func(b *rtnlc.Builder) {
		b.Open(rtnlc.RTA_MULTIPATH)
		b.PutUint32(rtnlc.RTA_OIF, 1)
	})
	refuses(t, rtnlc.ErrStillOpen, standard, func(b *rtnlc.Builder) {
		b.Open(rtnlc.RTA_METRICS)
		b.End()
	})
	refuses(t, rtnlc.ErrStillOpen, standard,
		func(b *rtnlc.Builder) { b.Begin(header, rtnlc.RouteHead{}) })
	refuses(t, rtnlc.ErrNothingOpen, standard, (*rtnlc.Builder).Close)
	refuses(t, rtnlc.ErrNothingOpen, standard, func(b *rtnlc.Builder) {
		b.End()
		b.PutUint32(rtnlc.RTA_OIF, 1)
	})
	refuses(t, rtnlc.ErrTooLong, func(o *rtnlc.Options) { o.Datagram = 1 << 20 },
		func(b *rtnlc.Builder) { b.Put(rtnlc.RTA_DST, make([]byte, 65532)) })
	refuses(t, rtnlc.ErrTooLarge, standard,
		func(b *rtnlc.Builder) { b.Put(rtnlc.RTA_DST, make([]byte, 65531)) })
	refuses(t, rtnlc.ErrTooLarge, func(o *rtnlc.Options) { o.Datagram = 32 },
		func(b *rtnlc.Builder) { b.PutUint64(rtnlc.RTA_DST, 1) })
	refuses(t, rtnlc.ErrTooDeep, func(o *rtnlc.Options) { o.Depth = 1 },
		func(b *rtnlc.Builder) {
			b.Open(99 | rtnlc.NLA_F_NESTED)
			b.Open(1 | rtnlc.NLA_F_NESTED)
		})
}

// An index that the kernel's field can't hold is refused; the last ones that it holds are put.
func TestBuilderIndexes(t *testing.T) {
	for _, it := range []struct {
		messageType uint16
		head        func(index int) rtnlc.Head
		least, most int
	}{
		{rtnlc.RTM_NEWLINK, func(index int) rtnlc.Head { return rtnlc.LinkHead{Index: index} },
			-1 << 31, 1<<31 - 1},
		{rtnlc.RTM_NEWADDR, func(index int) rtnlc.Head { return rtnlc.AddressHead{Index: index} },
			0, 1<<32 - 1},
		{rtnlc.RTM_NEWNEIGH, func(index int) rtnlc.Head { return rtnlc.NeighbourHead{Index: index} },
			-1 << 31, 1<<31 - 1},
	} {
		header := rtnlc.Header{Type: it.messageType}
		for _, index := range []int{it.least, it.most} {
			found := built(header, it.head(index), nothing)[40:48]
			equal(t, "index", found, hex.EncodeToString(joined(uint32(index))))
		}
		for _, index := range []int{it.least - 1, it.most + 1} {
			equal(t, "no index", built(header, it.head(index), nothing), "rtnlc: mismatch")
		}
	}
	for _, index := range []int{-1<<31 - 1, 1 << 31} {
		refuses(t, rtnlc.ErrMismatch, standard, func(b *rtnlc.Builder) {
			b.Open(rtnlc.RTA_MULTIPATH)
			b.OpenNextHop(rtnlc.NextHopHead{Index: index})
		})
	}
}

// A weight is that of ip(8), and rtnh_hops has one less; 0 is none that is said, which is 1.
func TestBuilderWeights(t *testing.T) {
	header := rtnlc.Header{Type: rtnlc.RTM_NEWROUTE}
	for weight, hops := range map[int]uint8{0: 0, 1: 0, 2: 1, 255: 254, 256: 255} {
		found := built(header, rtnlc.RouteHead{}, func(b *rtnlc.Builder) {
			b.Open(rtnlc.RTA_MULTIPATH)
			b.OpenNextHop(rtnlc.NextHopHead{Weight: weight})
			b.Close()
			b.Close()
		})
		equal(t, "a next hop", found[64:], hex.EncodeToString(hop(0, hops, 0)))
	}
	for _, weight := range []int{-1, 257, 65536, -1 << 31, 1<<31 - 1} {
		refuses(t, rtnlc.ErrMismatch, standard, func(b *rtnlc.Builder) {
			b.Open(rtnlc.RTA_MULTIPATH)
			b.OpenNextHop(rtnlc.NextHopHead{Weight: weight})
		})
	}
}

func TestBuilderMisuse(t *testing.T) {
	wrong := "rtnlc: " + rtnlc.ErrMismatch.String()
	header := rtnlc.Header{Type: rtnlc.RTM_NEWLINK}
	equal(t, "another head", built(header, rtnlc.RouteHead{}, nothing), wrong)
	header.Type = rtnlc.RTM_GETLINK
	equal(t, "a GET", built(header, rtnlc.LinkHead{}, nothing), wrong)
	header.Type = rtnlc.NLMSG_DONE
	equal(t, "no family", built(header, rtnlc.LinkHead{}, nothing), wrong)

	open := rtnlc.NewBuilder(make([]byte, 64), nil)
	open.Begin(rtnlc.Header{Type: rtnlc.RTM_NEWLINK}, rtnlc.LinkHead{})
	_, err := open.Finish()
	equal(t, "an open message", []any{errors.Is(err, rtnlc.ErrStillOpen), open.Err()},
		"[true <nil>]")
	open.End()
	_, err = open.Finish()
	equal(t, "that is ended", err, nil)

	for _, options := range []rtnlc.Options{{Datagram: 16, Depth: 33}, {Datagram: 17}} {
		b := rtnlc.NewBuilder(make([]byte, 64), &options)
		b.Begin(header, rtnlc.LinkHead{})
		_, err := b.Finish()
		equal(t, "a bad limit", err, rtnlc.ErrBadLimit)
	}
	var zero rtnlc.Builder
	zero.Close()
	_, err = zero.Finish()
	equal(t, "no builder", []any{err, zero.Err()}, []any{rtnlc.ErrNoBuilder, rtnlc.ErrNoBuilder})
}

func TestBuilderWholeMessages(t *testing.T) {
	b := rtnlc.NewBuilder(bytes.Repeat([]byte{0xaa}, 64), nil)
	done := rtnlc.Header{Type: rtnlc.NLMSG_DONE, Flags: 2, Seq: 7, Port: 9}
	b.PutMessage(done, []byte{1, 2, 3, 4, 5})
	get := rtnlc.Header{Type: rtnlc.RTM_GETLINK, Flags: rtnlc.NLM_F_REQUEST}
	b.PutMessage(get, []byte{rtnlc.AF_INET})
	datagram, err := b.Finish()
	equal(t, "two", []any{hex.EncodeToString(datagram), err}, "["+digits(`
		15000000 0300 0200 07000000 09000000 0102030405000000
		11000000 1200 0100 00000000 00000000 02000000`)+" <nil>]")
	b.Reset()
	b.PutMessage(rtnlc.Header{Type: rtnlc.RTM_NEWLINK}, make([]byte, 16))
	equal(t, "of a family", b.Err(), rtnlc.ErrMismatch)
	b.Reset()
	b.PutMessage(rtnlc.Header{Type: rtnlc.NLMSG_ERROR}, make([]byte, 19))
	equal(t, "a short one", b.Err(), rtnlc.ErrMismatch)
	b.Reset()
	b.Begin(rtnlc.Header{Type: rtnlc.RTM_NEWLINK}, rtnlc.LinkHead{})
	b.PutMessage(done, nil)
	equal(t, "in another", b.Err(), rtnlc.ErrStillOpen)
}

func TestErrno(t *testing.T) {
	for body, wanted := range map[string]string{
		"00000000": "[errno 0 true]", "ffffffff": "[operation not permitted true]",
		"01000000": "[operation not permitted true]", "edffffff": "[no such device true]",
	} {
		number, _ := hex.DecodeString(body)
		messages, err := rtnlc.Parse(message(rtnlc.NLMSG_ERROR, number, make([]byte, 16)))
		if err != nil {
			t.Fatal(err)
		}
		errno, found := messages[0].Errno()
		equal(t, body, []any{errno, found}, wanted)
	}
	for _, datagram := range [][]byte{message(rtnlc.NLMSG_DONE, uint32(0)), link(1)} {
		messages, _ := rtnlc.Parse(datagram)
		_, found := messages[0].Errno()
		equal(t, "no NLMSG_ERROR", found, false)
	}
	_, found := rtnlc.Message{}.Errno()
	equal(t, "no message", found, false)
}
