package rtnlc

import (
	"encoding/binary"
	"net/netip"
)

// A Head is what a message that is built begins with: a LinkHead, an AddressHead, a RouteHead, a
// NeighbourHead or a RuleHead.
type Head interface {
	// appendTo appends the struct of the kernel's headers, and says whether its field holds the
	// index.
	appendTo(bytes []byte, order order) ([]byte, bool)
}

// A LinkHead is the head of a link, struct ifinfomsg.
type LinkHead struct {
	Family uint8  // AF_UNSPEC, or the address family whose settings are meant
	Type   uint16 // ARPHRD_*, which the kernel doesn't look at
	Index  int    // of the interface; 0 where its name says which it is, or for a new one
	Flags  uint32 // as IFF_UP
	Change uint32 // which of the flags are to be taken over
}

// An AddressHead is the head of an address, struct ifaddrmsg.
type AddressHead struct {
	Family    uint8 // as AF_INET
	PrefixLen uint8 // how many bits of the address are those of its network
	Flags     uint8 // as IFA_F_NODAD, as far as they fit
	Scope     uint8 // as RT_SCOPE_UNIVERSE
	Index     int   // of its interface
}

// AddressOn is the head of an address with the length of its network's prefix, on an interface.
func AddressOn(prefix netip.Prefix, index int) AddressHead {
	return AddressHead{Family: FamilyOf(prefix.Addr()), PrefixLen: bitsOf(prefix), Index: index}
}

// A RouteHead is the head of a route, struct rtmsg.
type RouteHead struct {
	Family   uint8  // as AF_INET
	DstLen   uint8  // how many bits of the destination count, RTA_DST
	SrcLen   uint8  // the same of the source, RTA_SRC
	TOS      uint8  // the type of service of packets
	Table    uint8  // as RT_TABLE_MAIN; RTA_TABLE has one above 255
	Protocol uint8  // who makes it, as RTPROT_STATIC
	Scope    uint8  // how far its destination is, as RT_SCOPE_LINK
	Type     uint8  // what becomes of a packet, as RTN_UNICAST
	Flags    uint32 // as RTNH_F_ONLINK
}

// RouteTo is the head of a route to these addresses: its address family, and the length of its
// destination.
func RouteTo(dst netip.Prefix) RouteHead {
	return RouteHead{Family: FamilyOf(dst.Addr()), DstLen: bitsOf(dst)}
}

// A NeighbourHead is the head of a neighbour, struct ndmsg.
type NeighbourHead struct {
	Family uint8  // as AF_INET, or AF_BRIDGE of an entry of a bridge
	Index  int    // of its interface
	State  uint16 // as NUD_PERMANENT
	Flags  uint8  // as NTF_PROXY
	Type   uint8  // as RTN_UNICAST
}

// A RuleHead is the head of a rule, struct fib_rule_hdr.
type RuleHead struct {
	Family uint8  // as AF_INET
	DstLen uint8  // how many bits of the destination count, FRA_DST
	SrcLen uint8  // the same of the source, FRA_SRC
	TOS    uint8  // the type of service of packets
	Table  uint8  // as RT_TABLE_MAIN; FRA_TABLE has one above 255
	Action uint8  // as FR_ACT_TO_TBL
	Flags  uint32 // FIB_RULE_*
}

// A NextHopHead is what a next hop begins with, struct rtnexthop. Its Weight is that of ip(8),
// from 1 to 256, and 0 is 1: the kernel's field, rtnh_hops, has one less.
type NextHopHead struct {
	Flags  uint8 // as RTNH_F_ONLINK
	Weight int   // its share of the packets beside the others: from 1 to 256; 0 is 1
	Index  int   // of the interface, or 0
}

// hopsOf is the kernel's field of a weight, and whether there is one.
func hopsOf(weight int) (uint8, bool) {
	if weight == 0 {
		weight = 1
	}
	return uint8(weight - 1), weight >= 1 && weight <= 256
}

// FamilyOf is the address family of an address: AF_INET, AF_INET6, or AF_UNSPEC of the zero Addr.
func FamilyOf(addr netip.Addr) uint8 {
	switch {
	case addr.Is4():
		return AF_INET
	case addr.Is6():
		return AF_INET6
	}
	return AF_UNSPEC
}

// bitsOf is the length of a prefix; of one that is not valid it is 0.
func bitsOf(prefix netip.Prefix) uint8 {
	if !prefix.IsValid() {
		return 0
	}
	return uint8(prefix.Bits())
}

func (o order) append16(to []byte, number uint16) []byte {
	if o {
		return binary.BigEndian.AppendUint16(to, number)
	}
	return binary.LittleEndian.AppendUint16(to, number)
}

func (o order) append32(to []byte, number uint32) []byte {
	if o {
		return binary.BigEndian.AppendUint32(to, number)
	}
	return binary.LittleEndian.AppendUint32(to, number)
}

// isSigned says whether a field of four bytes and a sign holds an index.
func isSigned(index int) bool { return int64(index) == int64(int32(index)) }

// isUnsigned is the same of one without a sign.
func isUnsigned(index int) bool { return int64(index) == int64(uint32(index)) }

func (h LinkHead) appendTo(to []byte, order order) ([]byte, bool) {
	to = order.append16(append(to, h.Family, 0), h.Type)
	to = order.append32(to, uint32(h.Index))
	return order.append32(order.append32(to, h.Flags), h.Change), isSigned(h.Index)
}

func (h AddressHead) appendTo(to []byte, order order) ([]byte, bool) {
	to = append(to, h.Family, h.PrefixLen, h.Flags, h.Scope)
	return order.append32(to, uint32(h.Index)), isUnsigned(h.Index)
}

func (h RouteHead) appendTo(to []byte, order order) ([]byte, bool) {
	to = append(to, h.Family, h.DstLen, h.SrcLen, h.TOS, h.Table, h.Protocol, h.Scope, h.Type)
	return order.append32(to, h.Flags), true
}

func (h NeighbourHead) appendTo(to []byte, order order) ([]byte, bool) {
	to = order.append32(append(to, h.Family, 0, 0, 0), uint32(h.Index))
	return append(order.append16(to, h.State), h.Flags, h.Type), isSigned(h.Index)
}

func (h RuleHead) appendTo(to []byte, order order) ([]byte, bool) {
	to = append(to, h.Family, h.DstLen, h.SrcLen, h.TOS, h.Table, 0, 0, h.Action)
	return order.append32(to, h.Flags), true
}
