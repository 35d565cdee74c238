package rtnlc

/*
#include <rtnlc.h>

// The bytes that a request names lie one behind another at `at`, in the order of its fields. Its
// struct comes by value, since what lies in memory of Go may hold no pointer to them.
#define LIES(field) it.field.at = at, at += it.field.len

#define ASKING(name, ...) \
	static struct rtnlc_put asked_##name(struct rtnlc_##name##_request it, const uint8_t *at, \
	                                     uint8_t operation, uint32_t seq, bool big, \
	                                     uint8_t *out, size_t room) \
	{ \
		__VA_ARGS__; \
		return rtnlc_request_##name(&it, operation, seq, big, out, room); \
	}

ASKING(link, LIES(name), LIES(address), LIES(kind), LIES(data))
ASKING(addr, LIES(local), LIES(peer), LIES(broadcast), LIES(label))
ASKING(neigh, LIES(destination), LIES(link_address))
ASKING(rule, LIES(source), LIES(destination), LIES(iif), LIES(oif))

static struct rtnlc_put asked_route(struct rtnlc_route_request it, const uint8_t *at,
                                    const struct rtnlc_metric *metrics,
                                    const struct rtnlc_next_hop *hops, uint8_t operation,
                                    uint32_t seq, bool big, uint8_t *out, size_t room)
{
	LIES(destination), LIES(source), LIES(gateway), LIES(preferred_source);
	it.metrics = metrics;
	it.hops = hops;
	return rtnlc_request_route(&it, operation, seq, big, out, room);
}
*/
import "C"

import (
	"fmt"
	"net"
	"net/netip"
	"strconv"
)

// An Operation is what a request asks for, in the words of ip(8). Each has NLM_F_REQUEST and
// NLM_F_ACK, so the kernel answers it, with an error or with an acknowledgement.
type Operation uint8

// The operations of requests.
const (
	Add     Operation = C.RTNLC_ADD     // made, refused where it is there: NLM_F_CREATE, NLM_F_EXCL
	Replace Operation = C.RTNLC_REPLACE // made, or takes its place: NLM_F_CREATE, NLM_F_REPLACE
	Change  Operation = C.RTNLC_CHANGE  // takes the place of what is there: NLM_F_REPLACE
	Append  Operation = C.RTNLC_APPEND  // made behind the others: NLM_F_CREATE, NLM_F_APPEND
	Prepend Operation = C.RTNLC_PREPEND // made before the others: NLM_F_CREATE
	Set     Operation = C.RTNLC_SET     // fields of what is there are set: no further flag
	Delete  Operation = C.RTNLC_DELETE  // taken away: a message DEL, while the others are NEW
)

var operations = [...]string{"add", "replace", "change", "append", "prepend", "set", "delete"}

// String is the word that ip(8) has for it, or its number where it is none.
func (o Operation) String() string {
	if int(o) < len(operations) {
		return operations[o]
	}
	return strconv.Itoa(int(o))
}

// A ChangeRequest is a request that changes something: a LinkRequest, an AddressRequest, a
// RouteRequest, a NeighbourRequest or a RuleRequest.
//
// In each the zero value of a field is none, and its attribute is not put. A number that may be 0,
// where it is there, stands behind a pointer: nil is none. What the kernel would refuse is put as
// it is: a name that is too long, an address of another family, an operation that the family
// doesn't know. An address has its four bytes or sixteen, without its zone.
type ChangeRequest interface {
	// AppendTo appends one message, which asks for the operation with this sequence number and
	// with port id 0: its type and flags, the head, and those attributes that are there, in the
	// order and with the bytes that ip(8) sends. It is a multiple of four bytes, and what is in
	// front of it is not looked at: several requests in one datagram are appended one behind
	// another, each with a number of its own, and the kernel answers each. Of the options
	// BigEndian alone counts. It takes memory where the capacity is too small, and may write behind
	// the bytes in it.
	//
	// Where there is an error, the bytes are those that were given. The error is a Code, or wraps
	// one and says more: ErrMismatch for an operation that is none of those above, for a prefix
	// that has an address and is not valid, for an AddressRequest without Local, for an index that
	// the kernel's field can't hold, for a Weight above 256 or below 0, and for a Metric whose
	// number is 16,384 or more; ErrTooLong for an attribute of more than 65,535 bytes, its head
	// among them; ErrTooLarge for a message of more than 65,536 bytes.
	AppendTo(bytes []byte, operation Operation, seq uint32, options *Options) ([]byte, error)
}

// PointerTo points to a copy of a value, for those fields of a request that may be 0 or false.
func PointerTo[T any](value T) *T { return &value }

// A LinkRequest is a request of a link: the one with Index or, where that is 0, the one with Name.
// Of the operations Add, Replace, Set and Delete are for links.
type LinkRequest struct {
	Index        int              // 0 where the name says which one, or the kernel chooses it
	Name         string           // IFLA_IFNAME; its new name where there is an index
	HardwareAddr net.HardwareAddr // IFLA_ADDRESS
	Kind         string           // IFLA_INFO_KIND of a virtual interface, as "vlan"
	Data         []byte           // IFLA_INFO_DATA: attributes of the kind's own; none without Kind
	MTU          *uint32          // IFLA_MTU, in bytes
	Master       *int             // IFLA_MASTER, an index; 0 takes it out of its bridge or its like
	Link         *int             // IFLA_LINK, the index of the interface that it lies on
	Up           *bool            // IFF_UP: brought up, or down
}

// An AddressRequest is a request of an address of an interface; its family is that of Local. Of the
// operations Add, Replace, Change and Delete are for addresses.
type AddressRequest struct {
	Index     int          // of the interface
	Local     netip.Prefix // IFA_LOCAL, with the length of its network's prefix; there must be one
	Peer      netip.Prefix // IFA_ADDRESS, the other end's, whose length counts then; else as Local
	Broadcast netip.Addr   // IFA_BROADCAST
	Label     string       // IFA_LABEL
	Flags     uint32       // as IFA_F_NODAD; those above 255 stand in IFA_FLAGS
	Scope     uint8        // as RT_SCOPE_LINK
	Lifetimes *Lifetimes   // IFA_CACHEINFO
}

// Lifetimes say how long an address is preferred, and how long it is valid: in seconds, 1<<32 - 1
// for ever. Both are put as they are: one that is left out is 0, and not for ever as by ip(8).
type Lifetimes struct{ Preferred, Valid uint32 }

// A RouteRequest is a request of a route. Of the operations all but Set are for routes.
//
// ip(8) makes one with RT_TABLE_MAIN, RTPROT_BOOT, RTN_UNICAST, and for IPv4 with RT_SCOPE_LINK
// where there is no gateway; it deletes one with protocol and type 0, and for IPv4 with
// RT_SCOPE_NOWHERE. A gateway of another family than the route's is RTA_VIA, by a Builder.
//
// A Family that is not said is that of the first address that is there, of Dst, Src, Gateway,
// PrefSrc and the gateways of NextHops, and AF_INET where there is none, as by ip(8).
type RouteRequest struct {
	Family   uint8            // as AF_INET6; AF_UNSPEC for that of its first address, or AF_INET
	Dst      netip.Prefix     // RTA_DST; none for the default route
	Src      netip.Prefix     // RTA_SRC, that packets must have
	Gateway  netip.Addr       // RTA_GATEWAY
	PrefSrc  netip.Addr       // RTA_PREFSRC, the source address that it is used with
	Priority *uint32          // RTA_PRIORITY, its metric: the lowest is taken
	OutIndex *int             // RTA_OIF, the index of the output interface
	Table    uint32           // as RT_TABLE_MAIN; one above 255 stands in RTA_TABLE
	TOS      uint8            // the type of service of packets
	Protocol uint8            // who makes it, as RTPROT_STATIC
	Scope    uint8            // how far its destination is, as RT_SCOPE_LINK
	Type     uint8            // what becomes of a packet, as RTN_UNICAST
	Flags    uint32           // RTNH_F_ONLINK for a gateway that is on the link
	Metrics  []Metric         // RTA_METRICS
	NextHops []NextHopRequest // RTA_MULTIPATH: several next hops, instead of Gateway and OutIndex
}

// A Metric is a number of RTAX, as RTAX_MTU, and its value.
type Metric struct {
	Number uint16
	Value  uint32
}

// A NextHopRequest is one of several next hops of a route, struct rtnexthop. Its Weight is as of a
// NextHopHead.
type NextHopRequest struct {
	Index   int        // of the interface, or 0
	Flags   uint8      // as RTNH_F_ONLINK
	Weight  int        // its share of the packets beside the others: from 1 to 256; 0 is 1
	Gateway netip.Addr // RTA_GATEWAY
}

// A NeighbourRequest is a request of a neighbour. Of the operations all but Prepend and Set are for
// neighbours, Append for entries of a bridge. ip(8) takes NUD_PERMANENT where no state is said.
//
// A Family that is not said is that of Addr, and AF_BRIDGE where there is none: without an address
// it is an entry of a bridge, as by bridge(8).
type NeighbourRequest struct {
	Family       uint8            // as AF_BRIDGE; AF_UNSPEC for that of Addr, or AF_BRIDGE
	Index        int              // of the interface
	Addr         netip.Addr       // NDA_DST
	HardwareAddr net.HardwareAddr // NDA_LLADDR
	State        uint16           // as NUD_PERMANENT
	Flags        uint8            // as NTF_PROXY
	VLAN         *uint16          // NDA_VLAN, of an entry of a bridge
}

// A RuleRequest is a request of a rule. Of the operations Add and Delete are for rules. One that is
// added has FR_ACT_TO_TBL and a table, or another action and table 0; ip(8) deletes one with action
// 0.
//
// A Family that is not said is that of From, or else that of To, and AF_INET where there is
// neither, as by ip(8).
type RuleRequest struct {
	Family            uint8        // as AF_INET6; AF_UNSPEC for that of From or To, or AF_INET
	From              netip.Prefix // FRA_SRC, the sources that it is for; none for all
	To                netip.Prefix // FRA_DST, the destinations that it is for; none for all
	InName            string       // FRA_IIFNAME, by which packets come
	OutName           string       // FRA_OIFNAME, by which they leave
	Mark              *uint32      // FRA_FWMARK, of the packets that it is for
	Mask              *uint32      // FRA_FWMASK, the bits of the mark that count; nil for all
	Priority          *uint32      // FRA_PRIORITY, its place among the others: the lowest is first
	Target            *uint32      // FRA_GOTO, the priority that FR_ACT_GOTO goes to
	SuppressPrefixLen *uint32      // FRA_SUPPRESS_PREFIXLEN: routes of no more bits don't count
	Table             uint32       // as RT_TABLE_MAIN; one above 255 stands in FRA_TABLE
	TOS               uint8        // the type of service of packets
	Action            uint8        // as FR_ACT_TO_TBL
	Invert            bool         // FIB_RULE_INVERT: for the packets that don't match
}

// named are the bytes that a request names, one behind another in the order of the struct, and why
// they can't be put.
type named struct {
	bytes   []byte
	refused error
}

func (n *named) put(bytes []byte) C.struct_rtnlc_bytes {
	n.bytes = append(n.bytes, bytes...)
	return C.struct_rtnlc_bytes{len: C.size_t(len(bytes))}
}

func (n *named) text(text string) C.struct_rtnlc_bytes { return n.put([]byte(text)) }

func (n *named) addr(addr netip.Addr) C.struct_rtnlc_bytes { return n.put(addr.AsSlice()) }

// prefix puts the address of a prefix, if it has one: then it must be valid.
func (n *named) prefix(prefix netip.Prefix) C.struct_rtnlc_bytes {
	if addr := prefix.Addr(); addr.IsValid() && !prefix.IsValid() {
		n.refused = fmt.Errorf("%w: the prefix of %v has no valid length", ErrMismatch, addr)
	}
	return n.addr(prefix.Addr())
}

// append appends the message that a call puts, which is made again with twice the room while that
// is too small: none needs more than 65,536 bytes.
func (n *named) append(to []byte, call func(*C.uint8_t, C.size_t) C.struct_rtnlc_put) (
	[]byte, error) {
	if n.refused != nil {
		return to, n.refused
	}
	for room := to[len(to):cap(to)]; ; {
		put := call(bytesAt(room), C.size_t(len(room)))
		switch {
		case put.code == C.RTNLC_NO_ROOM:
			room = make([]byte, 256+2*len(room))
		case put.code == C.RTNLC_MISMATCH: // what else might be one is refused already
			return to, fmt.Errorf("%w: no operation has this number", ErrMismatch)
		case put.code != ok:
			return to, Code(put.code)
		default: // where the room is in the capacity, these are there already
			return append(to, room[:put.len]...), nil
		}
	}
}

// familyOf is an address family, or that of the first of the addresses that is one, or else
// another one: the kernel refuses a request of AF_UNSPEC.
func familyOf(family, other uint8, addrs ...netip.Addr) C.uint8_t {
	for at := 0; family == AF_UNSPEC && at < len(addrs); at++ {
		family = FamilyOf(addrs[at])
	}
	if family == AF_UNSPEC {
		family = other
	}
	return C.uint8_t(family)
}

// number is a number that may not be there.
func number(value *uint32) (C.uint32_t, C.bool) {
	if value == nil {
		return 0, false
	}
	return C.uint32_t(*value), true
}

// signed is the index of an interface, where the kernel's field has a sign.
func (n *named) signed(name string, index int) C.int32_t {
	if !isSigned(index) {
		n.refused = fmt.Errorf("%w: %s can't be %d", ErrMismatch, name, index)
	}
	return C.int32_t(index)
}

// unsigned is the same where the kernel's field has no sign.
func (n *named) unsigned(name string, index int) C.uint32_t {
	if !isUnsigned(index) {
		n.refused = fmt.Errorf("%w: %s can't be %d", ErrMismatch, name, index)
	}
	return C.uint32_t(index)
}

// weight is the kernel's field of the weight of a next hop.
func (n *named) weight(weight int) C.uint8_t {
	hops, fits := hopsOf(weight)
	if !fits {
		n.refused = fmt.Errorf("%w: Weight of a next hop must be from 1 to 256, not %d",
			ErrMismatch, weight)
	}
	return C.uint8_t(hops)
}

// index is the same of one that may not be there.
func (n *named) index(name string, index *int) (C.uint32_t, C.bool) {
	if index == nil {
		return 0, false
	}
	return n.unsigned(name, *index), true
}

// AppendTo appends the message of this request, as ChangeRequest says.
func (r LinkRequest) AppendTo(
	bytes []byte, operation Operation, seq uint32, options *Options) ([]byte, error) {
	var n named
	it := C.struct_rtnlc_link_request{
		name:    n.text(r.Name),
		address: n.put(r.HardwareAddr),
		kind:    n.text(r.Kind),
		data:    n.put(r.Data),
		index:   n.signed("Index", r.Index),
		has_up:  r.Up != nil,
		up:      C.bool(r.Up != nil && *r.Up),
	}
	it.mtu, it.has_mtu = number(r.MTU)
	it.master, it.has_master = n.index("Master", r.Master)
	it.link, it.has_link = n.index("Link", r.Link)
	return n.append(bytes, func(out *C.uint8_t, room C.size_t) C.struct_rtnlc_put {
		return C.asked_link(it, bytesAt(n.bytes), C.uint8_t(operation), C.uint32_t(seq),
			C.bool(options.isBigEndian()), out, room)
	})
}

// AppendTo appends the message of this request, as ChangeRequest says.
func (r AddressRequest) AppendTo(
	bytes []byte, operation Operation, seq uint32, options *Options) ([]byte, error) {
	var n named
	it := C.struct_rtnlc_addr_request{
		local:         n.prefix(r.Local),
		peer:          n.prefix(r.Peer),
		broadcast:     n.addr(r.Broadcast),
		label:         n.text(r.Label),
		index:         n.unsigned("Index", r.Index),
		flags:         C.uint32_t(r.Flags),
		family:        C.uint8_t(FamilyOf(r.Local.Addr())),
		prefix_length: C.uint8_t(bitsOf(r.Local)),
		scope:         C.uint8_t(r.Scope),
	}
	if r.Peer.IsValid() {
		it.prefix_length = C.uint8_t(bitsOf(r.Peer))
	}
	if it.has_lifetimes = r.Lifetimes != nil; it.has_lifetimes {
		it.preferred, it.valid = C.uint32_t(r.Lifetimes.Preferred), C.uint32_t(r.Lifetimes.Valid)
	}
	if !r.Local.Addr().IsValid() {
		n.refused = fmt.Errorf("%w: there is no local address", ErrMismatch)
	}
	return n.append(bytes, func(out *C.uint8_t, room C.size_t) C.struct_rtnlc_put {
		return C.asked_addr(it, bytesAt(n.bytes), C.uint8_t(operation), C.uint32_t(seq),
			C.bool(options.isBigEndian()), out, room)
	})
}

// AppendTo appends the message of this request, as ChangeRequest says.
func (r RouteRequest) AppendTo(
	bytes []byte, operation Operation, seq uint32, options *Options) ([]byte, error) {
	var n named
	it := C.struct_rtnlc_route_request{
		destination:        n.prefix(r.Dst),
		source:             n.prefix(r.Src),
		gateway:            n.addr(r.Gateway),
		preferred_source:   n.addr(r.PrefSrc),
		metric_count:       C.size_t(len(r.Metrics)),
		hop_count:          C.size_t(len(r.NextHops)),
		table:              C.uint32_t(r.Table),
		flags:              C.uint32_t(r.Flags),
		family:             familyOf(r.Family, AF_INET, r.addrs()...),
		destination_length: C.uint8_t(bitsOf(r.Dst)),
		source_length:      C.uint8_t(bitsOf(r.Src)),
		tos:                C.uint8_t(r.TOS),
		protocol:           C.uint8_t(r.Protocol),
		scope:              C.uint8_t(r.Scope),
		route_type:         C.uint8_t(r.Type),
	}
	it.priority, it.has_priority = number(r.Priority)
	it.oif, it.has_oif = n.index("OutIndex", r.OutIndex)
	metrics, hops := n.metrics(r.Metrics), n.hops(r.NextHops)
	return n.append(bytes, func(out *C.uint8_t, room C.size_t) C.struct_rtnlc_put {
		return C.asked_route(it, bytesAt(n.bytes), metrics, hops, C.uint8_t(operation),
			C.uint32_t(seq), C.bool(options.isBigEndian()), out, room)
	})
}

// addrs are the addresses of a route, of which the first says its family.
func (r RouteRequest) addrs() []netip.Addr {
	addrs := []netip.Addr{r.Dst.Addr(), r.Src.Addr(), r.Gateway, r.PrefSrc}
	for _, hop := range r.NextHops {
		addrs = append(addrs, hop.Gateway)
	}
	return addrs
}

// metrics are those of a route as the library takes them, or null where there is none.
func (n *named) metrics(metrics []Metric) *C.struct_rtnlc_metric {
	if len(metrics) == 0 {
		return nil
	}
	made := make([]C.struct_rtnlc_metric, len(metrics))
	for at, it := range metrics {
		if it.Number >= NLA_F_NET_BYTEORDER {
			n.refused = fmt.Errorf("%w: no metric has the number %d", ErrMismatch, it.Number)
		}
		made[at].number, made[at].value = C.uint16_t(it.Number), C.uint32_t(it.Value)
	}
	return &made[0]
}

// hops are the next hops of a route as the library takes them, or null where there is none.
func (n *named) hops(hops []NextHopRequest) *C.struct_rtnlc_next_hop {
	if len(hops) == 0 {
		return nil
	}
	made := make([]C.struct_rtnlc_next_hop, len(hops))
	for at, it := range hops {
		to := &made[at]
		to.index = n.signed("Index of a next hop", it.Index)
		to.flags, to.hops = C.uint8_t(it.Flags), n.weight(it.Weight)
		gateway := it.Gateway.AsSlice() // of 4 bytes, 16 or none
		to.gateway_len = C.uint8_t(len(gateway))
		for place, part := range gateway {
			to.gateway[place] = C.uint8_t(part)
		}
	}
	return &made[0]
}

// AppendTo appends the message of this request, as ChangeRequest says.
func (r NeighbourRequest) AppendTo(
	bytes []byte, operation Operation, seq uint32, options *Options) ([]byte, error) {
	var n named
	it := C.struct_rtnlc_neigh_request{
		destination:  n.addr(r.Addr),
		link_address: n.put(r.HardwareAddr),
		index:        n.signed("Index", r.Index),
		state:        C.uint16_t(r.State),
		family:       familyOf(r.Family, AF_BRIDGE, r.Addr),
		flags:        C.uint8_t(r.Flags),
	}
	if it.has_vlan = r.VLAN != nil; it.has_vlan {
		it.vlan = C.uint16_t(*r.VLAN)
	}
	return n.append(bytes, func(out *C.uint8_t, room C.size_t) C.struct_rtnlc_put {
		return C.asked_neigh(it, bytesAt(n.bytes), C.uint8_t(operation), C.uint32_t(seq),
			C.bool(options.isBigEndian()), out, room)
	})
}

// AppendTo appends the message of this request, as ChangeRequest says.
func (r RuleRequest) AppendTo(
	bytes []byte, operation Operation, seq uint32, options *Options) ([]byte, error) {
	var n named
	it := C.struct_rtnlc_rule_request{
		source:             n.prefix(r.From),
		destination:        n.prefix(r.To),
		iif:                n.text(r.InName),
		oif:                n.text(r.OutName),
		table:              C.uint32_t(r.Table),
		invert:             C.bool(r.Invert),
		family:             familyOf(r.Family, AF_INET, r.From.Addr(), r.To.Addr()),
		source_length:      C.uint8_t(bitsOf(r.From)),
		destination_length: C.uint8_t(bitsOf(r.To)),
		tos:                C.uint8_t(r.TOS),
		action:             C.uint8_t(r.Action),
	}
	it.mark, it.has_mark = number(r.Mark)
	it.mask, it.has_mask = number(r.Mask)
	it.target, it.has_target = number(r.Target)
	it.suppress_prefix_length, it.has_suppress_prefix_length = number(r.SuppressPrefixLen)
	it.priority, it.has_priority = number(r.Priority)
	return n.append(bytes, func(out *C.uint8_t, room C.size_t) C.struct_rtnlc_put {
		return C.asked_rule(it, bytesAt(n.bytes), C.uint8_t(operation), C.uint32_t(seq),
			C.bool(options.isBigEndian()), out, room)
	})
}
