package rtnlc_test

import "rtnl.invalid/rtnlc"

// Commands of ip(8), and the requests that are to be the same.

// An asking is a command of ip(8) or of bridge(8), and the request that is to be the same.
type asking struct {
	words     string
	operation rtnlc.Operation
	request   rtnlc.ChangeRequest
}

func some(value uint32) *uint32 { return &value }

func index(value int) *int { return &value }

// hardware is 02:00:00:00:00 with a last byte.
func hardware(last byte) []byte { return []byte{2, 0, 0, 0, 0, last} }

// What ip(8) sends of links, where `one` is 10 and `other` is 11.
var askingLinks = []asking{
	{"link set dev one up", rtnlc.Set, rtnlc.LinkRequest{Index: 10, Up: rtnlc.PointerTo(true)}},
	{"link set dev one down", rtnlc.Set, rtnlc.LinkRequest{Index: 10, Up: rtnlc.PointerTo(false)}},
	{"link set dev one mtu 1400", rtnlc.Set, rtnlc.LinkRequest{Index: 10, MTU: some(1400)}},
	{"link set dev one up mtu 1400", rtnlc.Set,
		rtnlc.LinkRequest{Index: 10, Up: rtnlc.PointerTo(true), MTU: some(1400)}},
	{"link set dev one down name three", rtnlc.Set,
		rtnlc.LinkRequest{Index: 10, Up: rtnlc.PointerTo(false), Name: "three"}},
	{"link set dev one address 02:00:00:00:00:01", rtnlc.Set,
		rtnlc.LinkRequest{Index: 10, HardwareAddr: hardware(1)}},
	{"link set dev one master other", rtnlc.Set, rtnlc.LinkRequest{Index: 10, Master: index(11)}},
	{"link set dev one nomaster", rtnlc.Set, rtnlc.LinkRequest{Index: 10, Master: index(0)}},
	{"link add dummy0 type dummy", rtnlc.Add, rtnlc.LinkRequest{Name: "dummy0", Kind: "dummy"}},
	{"link add name dummy1 mtu 1400 type dummy", rtnlc.Add,
		rtnlc.LinkRequest{Name: "dummy1", MTU: some(1400), Kind: "dummy"}},
	{"link add name dummy2 up type dummy", rtnlc.Add,
		rtnlc.LinkRequest{Name: "dummy2", Up: rtnlc.PointerTo(true), Kind: "dummy"}},
	{"link add name bridge0 type bridge", rtnlc.Add,
		rtnlc.LinkRequest{Name: "bridge0", Kind: "bridge"}},
	{"link add link one name one.5 type vlan id 5", rtnlc.Add, rtnlc.LinkRequest{Name: "one.5",
		Link: index(10), Kind: "vlan", Data: attr(1, uint16(5))}}, // IFLA_VLAN_ID
	{"link add name one10 type veth peer name other11", rtnlc.Add,
		rtnlc.LinkRequest{Name: "one10", Kind: "veth", // VETH_INFO_PEER
			Data: attr(1, make([]byte, 16), attr(rtnlc.IFLA_IFNAME, "other11\x00"))}},
	{"link add name vrf0 type vrf table 1000", rtnlc.Add, rtnlc.LinkRequest{Name: "vrf0",
		Kind: "vrf", Data: attr(1, uint32(1000))}}, // IFLA_VRF_TABLE
	{"link delete dev one", rtnlc.Delete, rtnlc.LinkRequest{Index: 10}},
	{"link delete one type veth", rtnlc.Delete, rtnlc.LinkRequest{Index: 10, Kind: "veth"}},
}

// address is an address of `one`, with what changes it.
func address(local string, changes ...func(*rtnlc.AddressRequest)) rtnlc.AddressRequest {
	made := rtnlc.AddressRequest{Index: 10, Local: prefix(local)}
	for _, change := range changes {
		change(&made)
	}
	return made
}

func peer(other string) func(*rtnlc.AddressRequest) {
	return func(a *rtnlc.AddressRequest) { a.Peer = prefix(other) }
}

func lifetimes(preferred, valid uint32) func(*rtnlc.AddressRequest) {
	return func(a *rtnlc.AddressRequest) { a.Lifetimes = &rtnlc.Lifetimes{preferred, valid} }
}

func flags(bits uint32) func(*rtnlc.AddressRequest) {
	return func(a *rtnlc.AddressRequest) { a.Flags = bits }
}

// What ip(8) sends of addresses.
var askingAddresses = []asking{
	{"address add 192.0.2.10/24 dev one", rtnlc.Add, address("192.0.2.10/24")},
	{"address add 192.0.2.11/24 broadcast 192.0.2.255 dev one", rtnlc.Add,
		address("192.0.2.11/24",
			func(a *rtnlc.AddressRequest) { a.Broadcast = addr("192.0.2.255") })},
	{"address add 192.0.2.13 peer 203.0.113.1/32 dev one", rtnlc.Add,
		address("192.0.2.13/24", peer("203.0.113.1/32"))},
	{"address add 192.0.2.14/24 dev one label one:14", rtnlc.Add,
		address("192.0.2.14/24", func(a *rtnlc.AddressRequest) { a.Label = "one:14" })},
	{"address add 192.0.2.15/24 dev one scope link", rtnlc.Add,
		address("192.0.2.15/24", func(a *rtnlc.AddressRequest) { a.Scope = rtnlc.RT_SCOPE_LINK })},
	{"address add 192.0.2.16/24 dev one valid_lft 3600 preferred_lft 1800", rtnlc.Add,
		address("192.0.2.16/24", lifetimes(1800, 3600))},
	{"address add 192.0.2.17/24 dev one noprefixroute", rtnlc.Add,
		address("192.0.2.17/24", flags(rtnlc.IFA_F_NOPREFIXROUTE))},
	{"address add 127.0.0.2/8 dev lo", rtnlc.Add, rtnlc.AddressRequest{Index: 1,
		Local: prefix("127.0.0.2/8"), Scope: rtnlc.RT_SCOPE_HOST}},
	{"address add 2001:db8::10/64 dev one", rtnlc.Add, address("2001:db8::10/64")},
	{"address add 2001:db8::11/64 dev one nodad", rtnlc.Add,
		address("2001:db8::11/64", flags(rtnlc.IFA_F_NODAD))},
	{"address add 2001:db8::12 peer 2001:db8:2::1/128 dev one", rtnlc.Add,
		address("2001:db8::12/64", peer("2001:db8:2::1/128"))},
	{"address replace 192.0.2.10/24 dev one", rtnlc.Replace, address("192.0.2.10/24")},
	{"address change 192.0.2.10/24 dev one valid_lft 60 preferred_lft 30", rtnlc.Change,
		address("192.0.2.10/24", lifetimes(30, 60))},
	{"address delete 192.0.2.10/24 dev one", rtnlc.Delete, address("192.0.2.10/24")},
	{"address delete 2001:db8::10/64 dev one", rtnlc.Delete, address("2001:db8::10/64")},
}

// route is a route of the main table as ip(8) makes it, with what changes it.
func route(dst, gateway string, changes ...func(*rtnlc.RouteRequest)) rtnlc.RouteRequest {
	made := rtnlc.RouteRequest{Table: rtnlc.RT_TABLE_MAIN, Protocol: rtnlc.RTPROT_BOOT,
		Type: rtnlc.RTN_UNICAST}
	if dst != "default" {
		made.Dst = prefix(dst)
	}
	if gateway != "" {
		made.Gateway = addr(gateway)
	}
	for _, change := range changes {
		change(&made)
	}
	return made
}

func by(index int) func(*rtnlc.RouteRequest) {
	return func(r *rtnlc.RouteRequest) { r.OutIndex = &index }
}

// on is to a network at an interface.
func on(index int) func(*rtnlc.RouteRequest) {
	return func(r *rtnlc.RouteRequest) { r.OutIndex, r.Scope = &index, rtnlc.RT_SCOPE_LINK }
}

func metric(number uint32) func(*rtnlc.RouteRequest) {
	return func(r *rtnlc.RouteRequest) { r.Priority = &number }
}

func in(table uint32) func(*rtnlc.RouteRequest) {
	return func(r *rtnlc.RouteRequest) { r.Table = table }
}

func sort(kind uint8) func(*rtnlc.RouteRequest) {
	return func(r *rtnlc.RouteRequest) { r.Type = kind }
}

func metrics(them ...rtnlc.Metric) func(*rtnlc.RouteRequest) {
	return func(r *rtnlc.RouteRequest) { r.Metrics = them }
}

func hops(them ...rtnlc.NextHopRequest) func(*rtnlc.RouteRequest) {
	return func(r *rtnlc.RouteRequest) { r.NextHops = them }
}

// gone is of a route that is deleted.
func gone(scope uint8) func(*rtnlc.RouteRequest) {
	return func(r *rtnlc.RouteRequest) { r.Protocol, r.Type, r.Scope = 0, 0, scope }
}

// What ip(8) sends of routes.
var askingRoutes = []asking{
	{"route add 10.1.0.0/16 via 192.0.2.254", rtnlc.Add, route("10.1.0.0/16", "192.0.2.254")},
	{"route add 10.2.0.0/16 via 192.0.2.254 dev one", rtnlc.Add,
		route("10.2.0.0/16", "192.0.2.254", by(10))},
	{"route add 10.3.0.0/16 dev one", rtnlc.Add, route("10.3.0.0/16", "", on(10))},
	{"route add default via 192.0.2.254", rtnlc.Add, route("default", "192.0.2.254")},
	{"route add default dev one metric 50", rtnlc.Add, route("default", "", on(10), metric(50))},
	{"route add 10.4.0.0/16 via 192.0.2.254 src 192.0.2.1 metric 100", rtnlc.Add,
		route("10.4.0.0/16", "192.0.2.254", metric(100),
			func(r *rtnlc.RouteRequest) { r.PrefSrc = addr("192.0.2.1") })},
	{"route add 10.5.0.0/16 via 192.0.2.254 table 100", rtnlc.Add,
		route("10.5.0.0/16", "192.0.2.254", in(100))},
	{"route add 10.6.0.0/16 via 192.0.2.254 table 1000", rtnlc.Add,
		route("10.6.0.0/16", "192.0.2.254", in(1000))},
	{"route add 10.7.0.0/16 via 192.0.2.254 mtu 1400 advmss 1360", rtnlc.Add,
		route("10.7.0.0/16", "192.0.2.254",
			metrics(rtnlc.Metric{rtnlc.RTAX_MTU, 1400}, rtnlc.Metric{rtnlc.RTAX_ADVMSS, 1360}))},
	{"route add 10.8.0.0/16 via 192.0.2.254 mtu lock 1400", rtnlc.Add,
		route("10.8.0.0/16", "192.0.2.254", metrics(rtnlc.Metric{rtnlc.RTAX_MTU, 1400},
			rtnlc.Metric{rtnlc.RTAX_LOCK, 1 << rtnlc.RTAX_MTU}))},
	{"route add 10.9.0.0/16 nexthop via 192.0.2.254 weight 1 nexthop via 198.51.100.254 weight 10",
		rtnlc.Add, route("10.9.0.0/16", "",
			hops(rtnlc.NextHopRequest{Gateway: addr("192.0.2.254"), Weight: 1},
				rtnlc.NextHopRequest{Gateway: addr("198.51.100.254"), Weight: 10}))},
	{"route add 10.10.0.0/16 nexthop via 192.0.2.254 dev one weight 2 nexthop dev other weight 256",
		rtnlc.Add, route("10.10.0.0/16", "",
			hops(rtnlc.NextHopRequest{Gateway: addr("192.0.2.254"), Index: 10, Weight: 2},
				rtnlc.NextHopRequest{Index: 11, Weight: 256}))},
	{"route add 10.11.0.0/16 via 192.0.2.254 dev one onlink", rtnlc.Add,
		route("10.11.0.0/16", "192.0.2.254", by(10),
			func(r *rtnlc.RouteRequest) { r.Flags = rtnlc.RTNH_F_ONLINK })},
	{"route add 10.12.0.0/16 via 192.0.2.254 proto static", rtnlc.Add,
		route("10.12.0.0/16", "192.0.2.254",
			func(r *rtnlc.RouteRequest) { r.Protocol = rtnlc.RTPROT_STATIC })},
	{"route add 10.13.0.0/16 dev one scope link", rtnlc.Add, route("10.13.0.0/16", "", on(10))},
	{"route add 10.14.0.0/16 tos 0x10 via 192.0.2.254", rtnlc.Add,
		route("10.14.0.0/16", "192.0.2.254", func(r *rtnlc.RouteRequest) { r.TOS = 0x10 })},
	{"route add blackhole 10.16.0.0/16", rtnlc.Add,
		route("10.16.0.0/16", "", sort(rtnlc.RTN_BLACKHOLE))},
	{"route add unreachable 10.17.0.0/16 metric 200", rtnlc.Add,
		route("10.17.0.0/16", "", sort(rtnlc.RTN_UNREACHABLE), metric(200))},
	{"route add prohibit 10.18.0.0/16 table 4294967294", rtnlc.Add,
		route("10.18.0.0/16", "", sort(rtnlc.RTN_PROHIBIT), in(4294967294))},
	{"route add local 10.19.0.0/16 dev lo", rtnlc.Add,
		route("10.19.0.0/16", "", sort(rtnlc.RTN_LOCAL), in(rtnlc.RT_TABLE_LOCAL), by(1),
			func(r *rtnlc.RouteRequest) { r.Scope = rtnlc.RT_SCOPE_HOST })},
	{"route add 10.20.0.1 via 192.0.2.254", rtnlc.Add, route("10.20.0.1/32", "192.0.2.254")},
	{"route replace 10.1.0.0/16 via 192.0.2.253", rtnlc.Replace,
		route("10.1.0.0/16", "192.0.2.253")},
	{"route append 10.1.0.0/16 via 192.0.2.252", rtnlc.Append, route("10.1.0.0/16", "192.0.2.252")},
	{"route change 10.1.0.0/16 via 192.0.2.251", rtnlc.Change, route("10.1.0.0/16", "192.0.2.251")},
	{"route prepend 10.1.0.0/16 via 192.0.2.250", rtnlc.Prepend,
		route("10.1.0.0/16", "192.0.2.250")},
	{"route delete 10.1.0.0/16", rtnlc.Delete,
		route("10.1.0.0/16", "", gone(rtnlc.RT_SCOPE_NOWHERE))},
	{"route delete 10.6.0.0/16 table 1000", rtnlc.Delete,
		route("10.6.0.0/16", "", gone(rtnlc.RT_SCOPE_NOWHERE), in(1000))},
	{"route delete 10.4.0.0/16 via 192.0.2.254 metric 100", rtnlc.Delete,
		route("10.4.0.0/16", "192.0.2.254", gone(rtnlc.RT_SCOPE_NOWHERE), metric(100))},
	{"route add 2001:db8:10::/48 via 2001:db8::fe", rtnlc.Add,
		route("2001:db8:10::/48", "2001:db8::fe")},
	{"route add 2001:db8:11::/48 via 2001:db8::fe dev one metric 100 table 1000", rtnlc.Add,
		route("2001:db8:11::/48", "2001:db8::fe", by(10), metric(100), in(1000))},
	{"route add 2001:db8:12::/48 nexthop via 2001:db8::fe weight 1" +
		" nexthop via 2001:db8:1::fe weight 5", rtnlc.Add, route("2001:db8:12::/48", "",
		hops(rtnlc.NextHopRequest{Gateway: addr("2001:db8::fe")},
			rtnlc.NextHopRequest{Gateway: addr("2001:db8:1::fe"), Weight: 5}))},
	{"route add 2001:db8:13::/48 dev one mtu 1400 hoplimit 20", rtnlc.Add,
		route("2001:db8:13::/48", "", by(10),
			metrics(rtnlc.Metric{rtnlc.RTAX_MTU, 1400}, rtnlc.Metric{rtnlc.RTAX_HOPLIMIT, 20}))},
	{"route add 2001:db8:14::/48 from 2001:db8:15::/48 via 2001:db8::fe", rtnlc.Add,
		route("2001:db8:14::/48", "2001:db8::fe",
			func(r *rtnlc.RouteRequest) { r.Src = prefix("2001:db8:15::/48") })},
	{"route add unreachable 2001:db8:16::/48", rtnlc.Add,
		route("2001:db8:16::/48", "", sort(rtnlc.RTN_UNREACHABLE))},
	{"route delete 2001:db8:10::/48", rtnlc.Delete, route("2001:db8:10::/48", "", gone(0))},
}

// neighbour is one behind `one`, which has a link address where a last byte is not 0.
func neighbour(to string, last byte, state uint16, flags uint8) rtnlc.NeighbourRequest {
	made := rtnlc.NeighbourRequest{Index: 10, Addr: addr(to), State: state, Flags: flags}
	if last != 0 {
		made.HardwareAddr = hardware(last)
	}
	return made
}

// What ip(8) sends of neighbours.
var askingNeighbours = []asking{
	{"neighbour add 192.0.2.20 lladdr 02:00:00:00:00:20 dev one", rtnlc.Add,
		neighbour("192.0.2.20", 0x20, rtnlc.NUD_PERMANENT, 0)},
	{"neighbour add 192.0.2.21 lladdr 02:00:00:00:00:21 dev one nud permanent", rtnlc.Add,
		neighbour("192.0.2.21", 0x21, rtnlc.NUD_PERMANENT, 0)},
	{"neighbour add 192.0.2.22 lladdr 02:00:00:00:00:22 dev one nud reachable", rtnlc.Add,
		neighbour("192.0.2.22", 0x22, rtnlc.NUD_REACHABLE, 0)},
	{"neighbour add proxy 192.0.2.23 dev one", rtnlc.Add,
		neighbour("192.0.2.23", 0, rtnlc.NUD_PERMANENT, rtnlc.NTF_PROXY)},
	{"neighbour add 2001:db8::20 lladdr 02:00:00:00:00:20 dev one router", rtnlc.Add,
		neighbour("2001:db8::20", 0x20, rtnlc.NUD_PERMANENT, rtnlc.NTF_ROUTER)},
	{"neighbour replace 192.0.2.20 lladdr 02:00:00:00:00:24 dev one nud stale", rtnlc.Replace,
		neighbour("192.0.2.20", 0x24, rtnlc.NUD_STALE, 0)},
	{"neighbour change 192.0.2.20 lladdr 02:00:00:00:00:25 dev one", rtnlc.Change,
		neighbour("192.0.2.20", 0x25, rtnlc.NUD_PERMANENT, 0)},
	{"neighbour delete 192.0.2.20 dev one", rtnlc.Delete,
		neighbour("192.0.2.20", 0, rtnlc.NUD_PERMANENT, 0)},
	{"neighbour delete 192.0.2.20 lladdr 02:00:00:00:00:25 dev one", rtnlc.Delete,
		neighbour("192.0.2.20", 0x25, rtnlc.NUD_PERMANENT, 0)},
	{"neighbour delete proxy 192.0.2.23 dev one", rtnlc.Delete,
		neighbour("192.0.2.23", 0, rtnlc.NUD_PERMANENT, rtnlc.NTF_PROXY)},
}

// rule is one that leads to a table.
func rule(from, to string, table uint32, changes ...func(*rtnlc.RuleRequest)) rtnlc.RuleRequest {
	made := rtnlc.RuleRequest{Table: table, Action: rtnlc.FR_ACT_TO_TBL}
	if from != "" {
		made.From = prefix(from)
	}
	if to != "" {
		made.To = prefix(to)
	}
	for _, change := range changes {
		change(&made)
	}
	return made
}

func priority(number uint32) func(*rtnlc.RuleRequest) {
	return func(r *rtnlc.RuleRequest) { r.Priority = &number }
}

func act(action uint8) func(*rtnlc.RuleRequest) {
	return func(r *rtnlc.RuleRequest) { r.Action = action }
}

func marked(mark, mask uint32) func(*rtnlc.RuleRequest) {
	return func(r *rtnlc.RuleRequest) { r.Mark, r.Mask = &mark, &mask }
}

func goes(target uint32) func(*rtnlc.RuleRequest) {
	return func(r *rtnlc.RuleRequest) { r.Action, r.Target = rtnlc.FR_ACT_GOTO, &target }
}

// What ip(8) sends of rules.
var askingRules = []asking{
	{"rule add from 192.0.2.0/24 table 100", rtnlc.Add, rule("192.0.2.0/24", "", 100)},
	{"rule add from 192.0.2.0/24 to 198.51.100.0/24 table 1000 priority 100", rtnlc.Add,
		rule("192.0.2.0/24", "198.51.100.0/24", 1000, priority(100))},
	{"rule add to 198.51.100.0/24 table 100 priority 101", rtnlc.Add,
		rule("", "198.51.100.0/24", 100, priority(101))},
	{"rule add fwmark 0x10 table 100 priority 102", rtnlc.Add, rule("", "", 100, priority(102),
		func(r *rtnlc.RuleRequest) { r.Mark = some(0x10) })},
	{"rule add fwmark 0x10/0xff table 1000 priority 103", rtnlc.Add,
		rule("", "", 1000, priority(103), marked(0x10, 0xff))},
	{"rule add iif one table 100 priority 104", rtnlc.Add, rule("", "", 100, priority(104),
		func(r *rtnlc.RuleRequest) { r.InName = "one" })},
	{"rule add oif other table main priority 105", rtnlc.Add,
		rule("", "", rtnlc.RT_TABLE_MAIN, priority(105),
			func(r *rtnlc.RuleRequest) { r.OutName = "other" })},
	{"rule add not from 192.0.2.0/24 table 100 priority 106", rtnlc.Add,
		rule("192.0.2.0/24", "", 100, priority(106),
			func(r *rtnlc.RuleRequest) { r.Invert = true })},
	{"rule add from 203.0.113.0/24 blackhole priority 107", rtnlc.Add,
		rule("203.0.113.0/24", "", 0, priority(107), act(rtnlc.FR_ACT_BLACKHOLE))},
	{"rule add from 203.0.113.0/24 unreachable priority 108", rtnlc.Add,
		rule("203.0.113.0/24", "", 0, priority(108), act(rtnlc.FR_ACT_UNREACHABLE))},
	{"rule add tos 0x10 table 100 priority 109", rtnlc.Add, rule("", "", 100, priority(109),
		func(r *rtnlc.RuleRequest) { r.TOS = 0x10 })},
	{"rule add from 203.0.113.0/24 goto 200 priority 110", rtnlc.Add,
		rule("203.0.113.0/24", "", 0, priority(110), goes(200))},
	{"-6 rule add from 2001:db8::/32 table 100 priority 100", rtnlc.Add,
		rule("2001:db8::/32", "", 100, priority(100))},
	{"-6 rule add from 2001:db8::/32 fwmark 0x10/0xff table 1000 priority 101", rtnlc.Add,
		rule("2001:db8::/32", "", 1000, priority(101), marked(0x10, 0xff))},
	{"rule delete priority 100", rtnlc.Delete, rule("", "", 0, priority(100), act(0))},
	{"rule delete from 192.0.2.0/24 table 100", rtnlc.Delete,
		rule("192.0.2.0/24", "", 100, act(0))},
	{"rule delete fwmark 0x10/0xff table 1000 priority 103", rtnlc.Delete,
		rule("", "", 1000, priority(103), marked(0x10, 0xff), act(0))},
	{"-6 rule delete from 2001:db8::/32 table 100 priority 100", rtnlc.Delete,
		rule("2001:db8::/32", "", 100, priority(100), act(0))},
}
