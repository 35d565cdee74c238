package rtnlc

import "net/netip"

// A Route is a view of a message of a route, whose body begins with struct rtmsg.
type Route struct{ Message }

// Route is the message as a route: RTM_NEWROUTE or RTM_DELROUTE.
func (m Message) Route() (Route, bool) {
	switch m.event().Number {
	case RTM_NEWROUTE, RTM_DELROUTE:
		return Route{m}, true
	}
	return Route{}, false
}

// Family is the address family, AF_INET or AF_INET6.
func (r Route) Family() uint8 { return r.byteAt(0) }

// Dst is where it leads: its RTA_DST with the length in its head. A default route has none.
func (r Route) Dst() (netip.Prefix, bool) { return r.first(RTA_DST).prefix(r.byteAt(1)) }

// IsDefault says whether it leads to all addresses: the length in its head is 0.
func (r Route) IsDefault() bool { return r.byteAt(1) == 0 }

// Src is from where it is taken, its RTA_SRC with the length in its head, which few routes have.
func (r Route) Src() (netip.Prefix, bool) { return r.first(RTA_SRC).prefix(r.byteAt(2)) }

// Gateway is its RTA_GATEWAY or, where there is none, the address in its RTA_VIA. A route with
// many next hops has it in them.
func (r Route) Gateway() (netip.Addr, bool) { return r.gateway(0) }

// OutIndex is the number of the interface that it leads to, its RTA_OIF. A route with many next
// hops has it in them.
func (r Route) OutIndex() (int, bool) { return r.first(RTA_OIF).index() }

// PrefSrc is the address that it is used with, its RTA_PREFSRC.
func (r Route) PrefSrc() (netip.Addr, bool) { return r.first(RTA_PREFSRC).Addr() }

// Table is the number of its table: its RTA_TABLE, or that in its head where there is none.
func (r Route) Table() uint32 { return r.table(4, RTA_TABLE) }

// Priority is its RTA_PRIORITY, or metric.
func (r Route) Priority() (uint32, bool) { return r.first(RTA_PRIORITY).Uint32() }

// TOS is the type of service that it is for.
func (r Route) TOS() uint8 { return r.byteAt(3) }

// Protocol is where it came from, as RTPROT_STATIC.
func (r Route) Protocol() uint8 { return r.byteAt(5) }

// Scope is how far its destination is, as RT_SCOPE_LINK.
func (r Route) Scope() uint8 { return r.byteAt(6) }

// Type is what it does with a packet, as RTN_UNICAST.
func (r Route) Type() uint8 { return r.byteAt(7) }

// Flags are its flags, RTM_F_* of the kernel and the RTNH_F_* of its only next hop.
func (r Route) Flags() uint32 { return r.uint32At(8) }

// NextHops are the next hops in its RTA_MULTIPATH, for a loop over Next: none where it has not got
// one.
func (r Route) NextHops() NextHops { return r.first(RTA_MULTIPATH).NextHops() }

// table is the number of a table: that of an attribute or, where there is none, in the head.
func (m Message) table(at int, number uint16) uint32 {
	if table, found := m.first(number).Uint32(); found {
		return table
	}
	return uint32(m.byteAt(at))
}

// A Rule is a view of a message of a rule, whose body begins with struct fib_rule_hdr.
type Rule struct{ Message }

// Rule is the message as a rule: RTM_NEWRULE or RTM_DELRULE.
func (m Message) Rule() (Rule, bool) {
	switch m.event().Number {
	case RTM_NEWRULE, RTM_DELRULE:
		return Rule{m}, true
	}
	return Rule{}, false
}

// Family is the address family, AF_INET or AF_INET6.
func (r Rule) Family() uint8 { return r.byteAt(0) }

// From are the sources that it is for: its FRA_SRC with the length in its head. A rule for all has
// none.
func (r Rule) From() (netip.Prefix, bool) { return r.first(FRA_SRC).prefix(r.byteAt(2)) }

// To are the destinations that it is for: its FRA_DST with the length in its head. A rule for all
// has none.
func (r Rule) To() (netip.Prefix, bool) { return r.first(FRA_DST).prefix(r.byteAt(1)) }

// Table is the number of the table that it leads to: its FRA_TABLE, or that in its head where
// there is none.
func (r Rule) Table() uint32 { return r.table(4, FRA_TABLE) }

// Priority is its FRA_PRIORITY, which the rule in front of all others has not got.
func (r Rule) Priority() (uint32, bool) { return r.first(FRA_PRIORITY).Uint32() }

// Mark is its FRA_FWMARK: the mark of the packets that it is for.
func (r Rule) Mark() (uint32, bool) { return r.first(FRA_FWMARK).Uint32() }

// Mask is its FRA_FWMASK: the bits of a mark that count.
func (r Rule) Mask() (uint32, bool) { return r.first(FRA_FWMASK).Uint32() }

// InName is the name of the interface that packets came from, its FRA_IIFNAME.
func (r Rule) InName() (string, bool) { return r.first(FRA_IIFNAME).Text() }

// OutName is the name of the interface that packets leave by, its FRA_OIFNAME.
func (r Rule) OutName() (string, bool) { return r.first(FRA_OIFNAME).Text() }

// TOS is the type of service that it is for.
func (r Rule) TOS() uint8 { return r.byteAt(3) }

// Action is what it does, as FR_ACT_TO_TBL.
func (r Rule) Action() uint8 { return r.byteAt(7) }

// Flags are its flags, FIB_RULE_* of the kernel.
func (r Rule) Flags() uint32 { return r.uint32At(8) }
