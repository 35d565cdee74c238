package rtnlc_test

import (
	"bytes"
	"encoding/hex"
	"errors"
	"net/netip"
	"os"
	"path/filepath"
	"strings"
	"testing"

	"rtnl.invalid/rtnlc"
)

// unsaid begin those commands that need an attribute which no request has, or one in another place:
// they are a Builder's.
var unsaid = []string{
	"link set dev one txqueuelen", "link set dev one alias",
	"address add 192.0.2.12/24 broadcast +",
	"route add 10.15.0.0/16 via inet6", "route add 2001:db8:17::/48 via 2001:db8::fe pref",
	"route add 2001:db8:18::/48 dev one expires",
	"-6 rule add from all", "rule add uidrange", "rule add ipproto", "rule add l3mdev",
}

// sentByIP is what ip(8) sends for each command of a table, with the sequence number 0.
func sentByIP(t *testing.T) map[string]string {
	t.Helper()
	path := filepath.Join(repository(t), "tests", "building", "ip_sends.txt")
	text, err := os.ReadFile(path)
	if err != nil {
		t.Fatal(err)
	}
	found := map[string]string{}
	for _, line := range strings.Split(string(text), "\n") {
		if words, bytes, isRow := strings.Cut(line, "\t"); isRow {
			found[words] = bytes
		}
	}
	return found
}

// put is the message of a request in hexadecimal, or why there is none.
func put(request rtnlc.ChangeRequest, operation rtnlc.Operation) string {
	bytes, err := request.AppendTo(nil, operation, 0, nil)
	if err != nil {
		return err.Error()
	}
	return hex.EncodeToString(bytes)
}

func TestRequestsSendWhatIPSends(t *testing.T) {
	sent := sentByIP(t)
	equal(t, "commands", len(sent), 105)
	for _, rows := range [][]asking{askingLinks, askingAddresses, askingRoutes, askingNeighbours,
		askingRules} {
		for _, it := range rows {
			wanted, found := sent[it.words]
			equal(t, it.words+" is there", found, true)
			equal(t, it.words, put(it.request, it.operation), wanted)
			delete(sent, it.words)
		}
	}
	equal(t, "commands that no request says", len(sent), len(unsaid))
	for words := range sent {
		isUnsaid := false
		for _, it := range unsaid {
			isUnsaid = isUnsaid || strings.HasPrefix(words, it)
		}
		equal(t, words, isUnsaid, true)
	}
}

// entry is one of a bridge.
func entry(vlan *uint16, state uint16, flags uint8) rtnlc.NeighbourRequest {
	return rtnlc.NeighbourRequest{Index: 10, HardwareAddr: hardware(0x30), State: state,
		Flags: flags, VLAN: vlan}
}

// What ip(8) and bridge(8) of iproute2-6.1.0 send besides: numbers that are 0, or at their limits.
var sendsBesides = []struct {
	asking
	expected string
}{
	{asking{"link set dev one mtu 0", rtnlc.Set, rtnlc.LinkRequest{Index: 10, MTU: some(0)}},
		"28000000100005000000000000000000000000000a00000000000000000000000800040000000000"},
	{asking{"link add link one name one.6 up address 02:00:00:00:00:09 mtu 1400 type vlan id 6",
		rtnlc.Add, rtnlc.LinkRequest{Name: "one.6", Up: rtnlc.PointerTo(true),
			HardwareAddr: hardware(9), MTU: some(1400), Link: index(10), Kind: "vlan",
			Data: attr(1, uint16(6))}},
		`6000000010000506000000000000000000000000000000000100000001000000 0a0001000200000000090000
		0800040078050000080005000a0000000a0003006f6e652e36000000 1800120008000100766c616e0c000200
		0600010006000000`},
	{asking{"link add index 12 name dummy9 type dummy", rtnlc.Add,
		rtnlc.LinkRequest{Index: 12, Name: "dummy9", Kind: "dummy"}},
		`3c000000100005060000000000000000000000000c0000000000000000000000 0b00030064756d6d79390000
		100012000900010064756d6d79000000`},
	{asking{"address add 192.0.2.18/24 broadcast 192.0.2.255 label one:18 dev one scope host" +
		" valid_lft 60 preferred_lft 0", rtnlc.Add,
		address("192.0.2.18/24", lifetimes(0, 60), func(a *rtnlc.AddressRequest) {
			a.Broadcast, a.Label = addr("192.0.2.255"), "one:18"
			a.Scope = rtnlc.RT_SCOPE_HOST
		})},
		`50000000140005060000000000000000021800fe0a000000 08000200c0000212 08000400c00002ff
		0b0003006f6e653a31380000 08000100c0000212 14000600000000003c0000000000000000000000`},
	{asking{"route add 10.30.0.0/16 via 192.0.2.254 metric 0", rtnlc.Add,
		route("10.30.0.0/16", "192.0.2.254", metric(0))},
		`3400000018000506000000000000000002100000fe03000100000000 080001000a1e0000
		08000500c00002fe 0800060000000000`},
	{asking{"route add 10.31.0.0/16 nexthop via 192.0.2.254 dev one onlink nexthop" +
		" via 198.51.100.254 dev other weight 3", rtnlc.Add, route("10.31.0.0/16", "", hops(
		rtnlc.NextHopRequest{Index: 10, Flags: rtnlc.RTNH_F_ONLINK, Gateway: addr("192.0.2.254")},
		rtnlc.NextHopRequest{Index: 11, Weight: 3, Gateway: addr("198.51.100.254")}))},
		`4800000018000506000000000000000002100000fe03000100000000 080001000a1f0000
		24000900 100004000a000000 08000500c00002fe 100000020b000000 08000500c63364fe`},
	{asking{"bridge fdb add 02:00:00:00:00:30 dev one", rtnlc.Add,
		entry(nil, 0xc0, rtnlc.NTF_SELF)},
		`280000001c0005060000000000000000 070000000a000000c0000200 0a0002000200000000300000`},
	{asking{"bridge fdb add 02:00:00:00:00:30 dev one vlan 0", rtnlc.Add,
		entry(rtnlc.PointerTo(uint16(0)), 0xc0, rtnlc.NTF_SELF)},
		`300000001c0005060000000000000000 070000000a000000c0000200 0a0002000200000000300000
		0600050000000000`},
	{asking{"bridge fdb add 02:00:00:00:00:30 dev one master static vlan 5", rtnlc.Add,
		entry(rtnlc.PointerTo(uint16(5)), 0x42, rtnlc.NTF_MASTER)},
		`300000001c0005060000000000000000 070000000a00000042000400 0a0002000200000000300000
		0600050005000000`},
	{asking{"bridge fdb del 02:00:00:00:00:30 dev one vlan 5", rtnlc.Delete,
		entry(rtnlc.PointerTo(uint16(5)), 0xc0, rtnlc.NTF_SELF)},
		`300000001d0005000000000000000000 070000000a000000c0000200 0a0002000200000000300000
		0600050005000000`},
	{asking{"rule add from 192.0.2.0/24 table 100 priority 0", rtnlc.Add,
		rule("192.0.2.0/24", "", 100, priority(0))},
		`2c000000200005060000000000000000 020018006400000100000000 08000200c0000200
		0800060000000000`},
	{asking{"rule add fwmark 0/0 table 100 priority 120", rtnlc.Add,
		rule("", "", 100, priority(120), marked(0, 0))},
		`34000000200005060000000000000000 020000006400000100000000 08000a0000000000
		0800100000000000 0800060078000000`},
	{asking{"rule add from 203.0.113.0/24 goto 0 priority 110", rtnlc.Add,
		rule("203.0.113.0/24", "", 0, priority(110), goes(0))},
		`34000000200005060000000000000000 020018000000000200000000 08000200cb007100
		0800040000000000 080006006e000000`},
	{asking{"rule add from 203.0.113.0/24 prohibit", rtnlc.Add,
		rule("203.0.113.0/24", "", 0, act(rtnlc.FR_ACT_PROHIBIT))},
		`24000000200005060000000000000000 020018000000000800000000 08000200cb007100`},
	{asking{"-6 rule add table main suppress_prefixlength 8 priority 111", rtnlc.Add,
		rule("", "", rtnlc.RT_TABLE_MAIN, priority(111), func(r *rtnlc.RuleRequest) {
			r.Family, r.SuppressPrefixLen = rtnlc.AF_INET6, some(8)
		})},
		`2c000000200005060000000000000000 0a000000fe00000100000000 08000e0008000000
		080006006f000000`},
	{asking{"route add 2001:db8:19::/48 via fe80::1 dev one", rtnlc.Add,
		route("2001:db8:19::/48", "fe80::1%one", by(10))},
		`4c0000001800050600000000000000000a300000fe03000100000000
		1400010020010db8001900000000000000000000 14000500fe800000000000000000000000000001
		080004000a000000`},
}

func TestRequestsSendWhatElseIPSends(t *testing.T) {
	for _, it := range sendsBesides {
		equal(t, it.words, put(it.request, it.operation), digits(it.expected))
	}
}

// The heads of requests in which nothing is said: of a link; of a route or a rule, which then are
// of IPv4; and of a neighbour, which is an entry of a bridge.
var (
	noLink      = make([]byte, 16)
	noRoute     = append([]byte{rtnlc.AF_INET}, make([]byte, 11)...)
	noNeighbour = append([]byte{rtnlc.AF_BRIDGE}, make([]byte, 11)...)
)

// What is there and 0, or false, is put, unlike what is not there: in the head, or in an attribute
// behind it.
var zeros = []struct {
	name     string
	request  rtnlc.ChangeRequest
	expected []byte
}{
	{"no field of a link", rtnlc.LinkRequest{}, noLink},
	{"up", rtnlc.LinkRequest{Up: new(bool)}, joined(make([]byte, 12), uint32(rtnlc.IFF_UP))},
	{"MTU", rtnlc.LinkRequest{MTU: some(0)}, joined(noLink, attr(rtnlc.IFLA_MTU, uint32(0)))},
	{"master", rtnlc.LinkRequest{Master: index(0)},
		joined(noLink, attr(rtnlc.IFLA_MASTER, uint32(0)))},
	{"link", rtnlc.LinkRequest{Link: index(0)}, joined(noLink, attr(rtnlc.IFLA_LINK, uint32(0)))},
	{"data without a kind", rtnlc.LinkRequest{Data: []byte{4, 0, 1, 0}}, noLink},
	{"lifetimes", rtnlc.AddressRequest{Local: prefix("0.0.0.0/0"), Lifetimes: &rtnlc.Lifetimes{}},
		joined(uint32(rtnlc.AF_INET), uint32(0), attr(rtnlc.IFA_LOCAL, uint32(0)),
			attr(rtnlc.IFA_ADDRESS, uint32(0)), attr(rtnlc.IFA_CACHEINFO, make([]byte, 16)))},
	{"no field of a route", rtnlc.RouteRequest{}, noRoute},
	{"priority of a route", rtnlc.RouteRequest{Priority: some(0)},
		joined(noRoute, attr(rtnlc.RTA_PRIORITY, uint32(0)))},
	{"output interface", rtnlc.RouteRequest{OutIndex: index(0)},
		joined(noRoute, attr(rtnlc.RTA_OIF, uint32(0)))},
	{"no metric, no next hop", rtnlc.RouteRequest{Metrics: []rtnlc.Metric{},
		NextHops: []rtnlc.NextHopRequest{}}, noRoute},
	{"no field of a neighbour", rtnlc.NeighbourRequest{}, noNeighbour},
	{"VLAN", rtnlc.NeighbourRequest{VLAN: new(uint16)},
		joined(noNeighbour, attr(rtnlc.NDA_VLAN, uint16(0)))},
	{"no field of a rule", rtnlc.RuleRequest{}, noRoute},
	{"mark", rtnlc.RuleRequest{Mark: some(0)}, joined(noRoute, attr(rtnlc.FRA_FWMARK, uint32(0)))},
	{"mask", rtnlc.RuleRequest{Mask: some(0)}, joined(noRoute, attr(rtnlc.FRA_FWMASK, uint32(0)))},
	{"target", rtnlc.RuleRequest{Target: some(0)},
		joined(noRoute, attr(rtnlc.FRA_GOTO, uint32(0)))},
	{"suppressed prefix", rtnlc.RuleRequest{SuppressPrefixLen: some(0)},
		joined(noRoute, attr(rtnlc.FRA_SUPPRESS_PREFIXLEN, uint32(0)))},
	{"priority of a rule", rtnlc.RuleRequest{Priority: some(0)},
		joined(noRoute, attr(rtnlc.FRA_PRIORITY, uint32(0)))},
}

func TestRequestsPutZeros(t *testing.T) {
	for _, it := range zeros {
		equal(t, it.name, put(it.request, rtnlc.Set)[32:], hex.EncodeToString(it.expected))
	}
}

// The first and the last index that the kernel's field holds, with a sign or without one.
func TestRequestsIndexes(t *testing.T) {
	const least, first, last, most = -1 << 31, uint32(1 << 31), uint32(1<<32 - 1), 1<<32 - 1
	for _, it := range []struct {
		name     string
		request  rtnlc.ChangeRequest
		expected []byte
	}{
		{"link, least", rtnlc.LinkRequest{Index: least}, joined(uint32(0), first, make([]byte, 8))},
		{"link, most", rtnlc.LinkRequest{Index: 1<<31 - 1}, joined(uint32(0), first-1,
			make([]byte, 8))},
		{"master", rtnlc.LinkRequest{Master: index(most)},
			joined(noLink, attr(rtnlc.IFLA_MASTER, last))},
		{"link below", rtnlc.LinkRequest{Link: index(most)},
			joined(noLink, attr(rtnlc.IFLA_LINK, last))},
		{"address", rtnlc.AddressRequest{Index: most, Local: prefix("0.0.0.0/0")},
			joined(uint32(rtnlc.AF_INET), last, attr(rtnlc.IFA_LOCAL, uint32(0)),
				attr(rtnlc.IFA_ADDRESS, uint32(0)))},
		{"route", rtnlc.RouteRequest{OutIndex: index(most)},
			joined(noRoute, attr(rtnlc.RTA_OIF, last))},
		{"next hop", rtnlc.RouteRequest{NextHops: []rtnlc.NextHopRequest{{Index: least}}},
			joined(noRoute, attr(rtnlc.RTA_MULTIPATH, hop(0, 0, first)))},
		{"neighbour", rtnlc.NeighbourRequest{Index: least},
			joined(uint32(rtnlc.AF_BRIDGE), first, uint32(0))},
	} {
		equal(t, it.name, put(it.request, rtnlc.Set)[32:], hex.EncodeToString(it.expected))
	}
}

// Each number with its highest byte first, after the kernel's headers.
func TestRequestsInBigEndian(t *testing.T) {
	big := rtnlc.Options{BigEndian: true}
	for _, it := range []struct {
		request  rtnlc.ChangeRequest
		expected string
	}{
		{rtnlc.LinkRequest{Index: 0x1020304, MTU: some(0x5060708), Master: index(0x90a0b0c),
			Link: index(0xd0e0f10), Up: rtnlc.PointerTo(true)},
			`00000038 0010 0605 11121314 00000000 00000000 01020304 00000001 00000001
			00080004 05060708 0008000a 090a0b0c 00080005 0d0e0f10`},
		{rtnlc.AddressRequest{Index: 0x1020304, Local: prefix("192.0.2.1/24"), Flags: 0x200,
			Lifetimes: &rtnlc.Lifetimes{5, 1<<32 - 1}},
			`00000044 0014 0605 11121314 00000000 02180000 01020304 00080002 c0000201
			00080008 00000200 00080001 c0000201 00140006 00000005 ffffffff 00000000 00000000`},
		{rtnlc.RouteRequest{Dst: prefix("10.0.0.0/8"), Table: 1000, Protocol: 3, Type: 1, Flags: 4,
			Priority: some(7), OutIndex: index(8), Metrics: []rtnlc.Metric{{rtnlc.RTAX_MTU, 1400}},
			NextHops: []rtnlc.NextHopRequest{{Index: 10, Gateway: addr("192.0.2.254")}}},
			`0000005c 0018 0605 11121314 00000000 02080000 00030001 00000004 00080001 0a000000
			00080006 00000007 0008000f 000003e8 00080004 00000008 000c0008 00080002 00000578
			00140009 00100000 0000000a 00080005 c00002fe`},
		{entry(rtnlc.PointerTo(uint16(5)), rtnlc.NUD_PERMANENT, rtnlc.NTF_SELF),
			`00000030 001c 0605 11121314 00000000 07000000 0000000a 00800200
			000a0002 020000000030 0000 00060005 00050000`},
		{rtnlc.RuleRequest{Table: 1000, Action: 1, Invert: true, Mark: some(1), Mask: some(2),
			Target: some(3), SuppressPrefixLen: some(4), Priority: some(5)},
			`0000004c 0020 0605 11121314 00000000 02000000 00000001 00000002 0008000a 00000001
			00080010 00000002 0008000f 000003e8 00080004 00000003 0008000e 00000004
			00080006 00000005`},
	} {
		found, err := it.request.AppendTo(nil, rtnlc.Add, 0x11121314, &big)
		equal(t, "error", err, nil)
		equal(t, "bytes", hex.EncodeToString(found), digits(it.expected))
	}
}

// An address family that is not said is that of the first address, or AF_INET, and AF_BRIDGE of a
// neighbour; an address has no zone.
func TestRequestsFamilies(t *testing.T) {
	local, other := addr("fe80::1%one"), addr("192.0.2.1")
	for _, it := range []struct {
		name     string
		request  rtnlc.ChangeRequest
		expected []byte
	}{
		{"gateway", rtnlc.RouteRequest{Gateway: local, PrefSrc: other},
			joined(uint32(rtnlc.AF_INET6), make([]byte, 8),
				attr(rtnlc.RTA_GATEWAY, local.AsSlice()),
				attr(rtnlc.RTA_PREFSRC, other.AsSlice()))},
		{"source", rtnlc.RouteRequest{Src: prefix("10.0.0.0/8"), Gateway: local},
			joined(uint8(rtnlc.AF_INET), uint8(0), uint16(8), make([]byte, 8),
				attr(rtnlc.RTA_SRC, "\x0a\x00\x00\x00"), attr(rtnlc.RTA_GATEWAY, local.AsSlice()))},
		{"next hop", rtnlc.RouteRequest{NextHops: []rtnlc.NextHopRequest{{}, {Gateway: other}}},
			joined(uint32(rtnlc.AF_INET), make([]byte, 8), attr(rtnlc.RTA_MULTIPATH, hop(0, 0, 0),
				hop(0, 0, 0, attr(rtnlc.RTA_GATEWAY, other.AsSlice()))))},
		{"no address", rtnlc.RouteRequest{NextHops: []rtnlc.NextHopRequest{{}}},
			joined(noRoute, attr(rtnlc.RTA_MULTIPATH, hop(0, 0, 0)))},
		{"said", rtnlc.RouteRequest{Family: rtnlc.AF_INET6}, joined(uint32(rtnlc.AF_INET6),
			make([]byte, 8))},
		{"another", rtnlc.RouteRequest{Family: 99, Dst: prefix("0.0.0.0/0")},
			joined(uint32(99), make([]byte, 8), attr(rtnlc.RTA_DST, uint32(0)))},
		{"neighbour", rtnlc.NeighbourRequest{Addr: local},
			joined(uint32(rtnlc.AF_INET6), make([]byte, 8), attr(rtnlc.NDA_DST, local.AsSlice()))},
		{"no neighbour", rtnlc.NeighbourRequest{Family: rtnlc.AF_UNSPEC}, noNeighbour},
		{"entry with an address", rtnlc.NeighbourRequest{Family: rtnlc.AF_BRIDGE, Addr: local},
			joined(uint32(rtnlc.AF_BRIDGE), make([]byte, 8),
				attr(rtnlc.NDA_DST, local.AsSlice()))},
		{"no rule", rtnlc.RuleRequest{Family: rtnlc.AF_UNSPEC}, noRoute},
		{"rule of IPv6", rtnlc.RuleRequest{Family: rtnlc.AF_INET6},
			joined(uint32(rtnlc.AF_INET6), make([]byte, 8))},
		{"rule", rtnlc.RuleRequest{To: netip.PrefixFrom(local, 10)},
			joined(uint16(10<<8|rtnlc.AF_INET6), make([]byte, 10),
				attr(rtnlc.FRA_DST, local.AsSlice()))},
	} {
		equal(t, it.name, put(it.request, rtnlc.Set)[32:], hex.EncodeToString(it.expected))
	}
}

func TestRequestsBehindOneAnother(t *testing.T) {
	var datagram []byte
	for seq, it := range []asking{askingLinks[14], askingAddresses[4], askingRoutes[10],
		askingNeighbours[4], askingRules[1]} {
		var err error
		datagram, err = it.request.AppendTo(datagram, it.operation, uint32(seq), nil)
		equal(t, it.words, err, nil)
	}
	messages, err := rtnlc.Parse(datagram)
	if err != nil || len(messages) != 5 {
		t.Fatal(messages, err)
	}
	for seq, it := range messages {
		equal(t, "sequence number", []any{it.Header().Seq, it.Header().Port}, []int{seq, 0})
	}
	link, _ := messages[0].Link()
	equal(t, "link", []any{told(link.Name()), told(link.Kind())}, "[vrf0 vrf]")
	address, _ := messages[1].Address()
	equal(t, "address", told(address.Prefix()), "192.0.2.15/24")
	route, _ := messages[2].Route()
	equal(t, "route", told(route.Dst()), "10.9.0.0/16")
	neighbour, _ := messages[3].Neighbour()
	equal(t, "neighbour", told(neighbour.Addr()), "2001:db8::20")
	rule, _ := messages[4].Rule()
	equal(t, "rule", told(rule.To()), "198.51.100.0/24")
}

// Behind any front, and with any room behind that, a message is the same; what lies behind the room
// is not written, and where the room is enough no other memory is taken.
func TestRequestsRooms(t *testing.T) {
	for _, request := range []rtnlc.ChangeRequest{
		rtnlc.LinkRequest{Name: "one", Kind: "dummy"},
		route("10.9.0.0/16", "", hops(make([]rtnlc.NextHopRequest, 60)...)),
	} {
		alone, _ := request.AppendTo(nil, rtnlc.Add, 1, nil)
		for room := 0; room < len(alone)+9; room++ {
			buffer := bytes.Repeat([]byte{0xaa}, 7+len(alone)+9)
			found, err := request.AppendTo(buffer[:7:7+room], rtnlc.Add, 1, nil)
			equal(t, "error", err, nil)
			if !bytes.Equal(found[:7], buffer[:7]) || !bytes.Equal(found[7:], alone) {
				t.Errorf("%d bytes of room: % x", room, found)
			}
			equal(t, "in place", &found[0] == &buffer[0], room >= len(alone))
			equal(t, "behind it", bytes.Count(buffer[7+room:], []byte{0xaa}), len(alone)+9-room)
		}
	}
	longest := put(rtnlc.LinkRequest{HardwareAddr: make([]byte, 65500)}, rtnlc.Set)
	equal(t, "the longest", len(longest), 2*65536)
}

var (
	tooLong  = make([]byte, 65532)
	bad      = netip.PrefixFrom(addr("10.0.0.0"), 33)
	noLength = "rtnlc: mismatch: the prefix of 10.0.0.0 has no valid length"

	noOperation = "rtnlc: mismatch: no operation has this number"
)

// Requests that are refused, by which code, and in which words.
var refusals = []struct {
	operation rtnlc.Operation
	request   rtnlc.ChangeRequest
	code      rtnlc.Code
	text      string
}{
	{7, rtnlc.LinkRequest{}, rtnlc.ErrMismatch, noOperation},
	{7, address("10.0.0.1/8"), rtnlc.ErrMismatch, noOperation},
	{8, rtnlc.RouteRequest{}, rtnlc.ErrMismatch, noOperation},
	{9, rtnlc.NeighbourRequest{}, rtnlc.ErrMismatch, noOperation},
	{255, rtnlc.RuleRequest{}, rtnlc.ErrMismatch, noOperation},
	{rtnlc.Add, rtnlc.AddressRequest{}, rtnlc.ErrMismatch,
		"rtnlc: mismatch: there is no local address"},
	{rtnlc.Add, rtnlc.AddressRequest{Local: bad}, rtnlc.ErrMismatch, noLength},
	{rtnlc.Add, rtnlc.AddressRequest{Local: prefix("10.0.0.1/8"), Peer: bad},
		rtnlc.ErrMismatch, noLength},
	{rtnlc.Add, rtnlc.RouteRequest{Dst: bad}, rtnlc.ErrMismatch, noLength},
	{rtnlc.Add, rtnlc.RouteRequest{Src: bad}, rtnlc.ErrMismatch, noLength},
	{rtnlc.Add, rtnlc.RuleRequest{From: bad}, rtnlc.ErrMismatch, noLength},
	{rtnlc.Add, rtnlc.RuleRequest{To: bad}, rtnlc.ErrMismatch, noLength},
	{rtnlc.Add, route("10.0.0.0/8", "", metrics(rtnlc.Metric{16384, 1})), rtnlc.ErrMismatch,
		"rtnlc: mismatch: no metric has the number 16384"},
	{rtnlc.Set, rtnlc.LinkRequest{Index: 1 << 31}, rtnlc.ErrMismatch,
		"rtnlc: mismatch: Index can't be 2147483648"},
	{rtnlc.Set, rtnlc.LinkRequest{Index: -1<<31 - 1}, rtnlc.ErrMismatch,
		"rtnlc: mismatch: Index can't be -2147483649"},
	{rtnlc.Set, rtnlc.LinkRequest{Master: index(-1)}, rtnlc.ErrMismatch,
		"rtnlc: mismatch: Master can't be -1"},
	{rtnlc.Set, rtnlc.LinkRequest{Link: index(1 << 32)}, rtnlc.ErrMismatch,
		"rtnlc: mismatch: Link can't be 4294967296"},
	{rtnlc.Add, rtnlc.AddressRequest{Index: -1, Local: prefix("10.0.0.1/8")}, rtnlc.ErrMismatch,
		"rtnlc: mismatch: Index can't be -1"},
	{rtnlc.Add, route("10.0.0.0/8", "", by(1<<32)), rtnlc.ErrMismatch,
		"rtnlc: mismatch: OutIndex can't be 4294967296"},
	{rtnlc.Add, route("10.0.0.0/8", "", hops(rtnlc.NextHopRequest{Index: 1 << 31})),
		rtnlc.ErrMismatch, "rtnlc: mismatch: Index of a next hop can't be 2147483648"},
	{rtnlc.Add, route("10.0.0.0/8", "", hops(rtnlc.NextHopRequest{Weight: 257})),
		rtnlc.ErrMismatch, "rtnlc: mismatch: Weight of a next hop must be from 1 to 256, not 257"},
	{rtnlc.Add, route("10.0.0.0/8", "", hops(rtnlc.NextHopRequest{Weight: -1})),
		rtnlc.ErrMismatch, "rtnlc: mismatch: Weight of a next hop must be from 1 to 256, not -1"},
	{rtnlc.Add, rtnlc.NeighbourRequest{Index: 1 << 31}, rtnlc.ErrMismatch,
		"rtnlc: mismatch: Index can't be 2147483648"},
	{rtnlc.Set, rtnlc.LinkRequest{Name: string(tooLong[:65531])}, rtnlc.ErrTooLong,
		"rtnlc: too long"},
	{rtnlc.Set, rtnlc.LinkRequest{HardwareAddr: tooLong}, rtnlc.ErrTooLong, "rtnlc: too long"},
	{rtnlc.Set, rtnlc.LinkRequest{Name: string(tooLong[:65530])}, rtnlc.ErrTooLarge,
		"rtnlc: too large"},
	{rtnlc.Set, rtnlc.LinkRequest{HardwareAddr: tooLong[:65501]}, rtnlc.ErrTooLarge,
		"rtnlc: too large"},
	{rtnlc.Add, rtnlc.NeighbourRequest{HardwareAddr: tooLong}, rtnlc.ErrTooLong,
		"rtnlc: too long"},
	{rtnlc.Add, route("10.0.0.0/8", "", hops(make([]rtnlc.NextHopRequest, 9000)...)),
		rtnlc.ErrTooLarge, "rtnlc: too large"},
}

func TestRequestsRefused(t *testing.T) {
	for _, it := range refusals {
		buffer := []byte("front, and room behind it")
		found, err := it.request.AppendTo(buffer[:5], it.operation, 1, nil)
		if !errors.Is(err, it.code) || err.Error() != it.text {
			t.Errorf("%s: %v", it.text, err)
		}
		equal(t, "what was there", string(found), "front")
		equal(t, "in place", &found[0] == &buffer[0] && cap(found) == cap(buffer), true)
	}
	found := put(route("10.0.0.0/8", "", metrics(rtnlc.Metric{16383, 1})), rtnlc.Add)
	equal(t, "the last metric", found[72:], hex.EncodeToString(
		attr(rtnlc.RTA_METRICS, attr(16383, uint32(1)))))
}

func TestOperations(t *testing.T) {
	equal(t, "words", []any{rtnlc.Add, rtnlc.Replace, rtnlc.Change, rtnlc.Append, rtnlc.Prepend,
		rtnlc.Set, rtnlc.Delete, rtnlc.Operation(7)},
		"[add replace change append prepend set delete 7]")
}
