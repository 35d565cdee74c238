package rtnlc

import (
	"bytes"
	"net"
	"net/netip"
)

// An Attr is an attribute: of a message, of another attribute, or of a next hop. What it holds is
// asked for as what it should be; the answer is false where it has another size, or holds
// attributes or next hops. The zero Attr holds nothing.
type Attr struct{ part }

const attrSize = 4

// Number is its type without the two flag bits, as IFLA_MTU.
func (a Attr) Number() uint16 { return a.event().Number }

// Nested says whether it has the flag NLA_F_NESTED.
func (a Attr) Nested() bool { return a.event().Nested }

// Net says whether it has the flag NLA_F_NET_BYTEORDER.
func (a Attr) Net() bool { return a.event().Net }

// Sort says whether it holds bytes, attributes or next hops.
func (a Attr) Sort() Sort { return a.event().Sort }

// Bytes are its payload, without padding: a part of the datagram. What it holds doesn't matter.
func (a Attr) Bytes() []byte { return a.behind(attrSize) }

// Attrs are the attributes that it holds, for a loop over Next: none where it holds bytes.
func (a Attr) Attrs() Attrs { return a.attrs(a.event().Level + 1) }

// NextHops are the next hops that it holds, for a loop over Next: none but of RTA_MULTIPATH of a
// route.
func (a Attr) NextHops() NextHops {
	if a.tape == nil || a.Sort() != SortHops {
		return NextHops{}
	}
	return NextHops{tape: a.tape, next: a.at + 1, end: a.end}
}

// Find is the first attribute of a number that it holds, as IFLA_INFO_KIND in IFLA_LINKINFO.
func (a Attr) Find(number uint16) (Attr, bool) { return a.find(a.event().Level+1, number) }

// value is the payload of an attribute that holds so many bytes.
func (a Attr) value(size int) ([]byte, bool) {
	payload := a.Bytes()
	return payload, len(payload) == size && a.Sort() == SortBytes
}

// order is that of the number in it: its flag Net says network order.
func (a Attr) order() order { return order(a.Net()) || a.part.order() }

// Uint8 is the number in its one byte.
func (a Attr) Uint8() (uint8, bool) {
	payload, fits := a.value(1)
	if !fits {
		return 0, false
	}
	return payload[0], true
}

// Uint16 is the number in its two bytes.
func (a Attr) Uint16() (uint16, bool) {
	payload, fits := a.value(2)
	if !fits {
		return 0, false
	}
	return a.order().uint16(payload), true
}

// Uint32 is the number in its four bytes.
func (a Attr) Uint32() (uint32, bool) {
	payload, fits := a.value(4)
	if !fits {
		return 0, false
	}
	return a.order().uint32(payload), true
}

// Uint64 is the number in its eight bytes.
func (a Attr) Uint64() (uint64, bool) {
	payload, fits := a.value(8)
	if !fits {
		return 0, false
	}
	return a.order().uint64(payload), true
}

// index is the number of an interface.
func (a Attr) index() (int, bool) {
	number, found := a.Uint32()
	return int(number), found
}

// Text is a copy of its bytes before the first zero byte, or of all. Any size fits.
func (a Attr) Text() (string, bool) {
	if a.tape == nil || a.Sort() != SortBytes {
		return "", false
	}
	payload := a.Bytes()
	if zero := bytes.IndexByte(payload, 0); zero >= 0 {
		payload = payload[:zero]
	}
	return string(payload), true
}

// Addr is the IP address in its four or sixteen bytes.
func (a Attr) Addr() (netip.Addr, bool) {
	if a.Sort() != SortBytes {
		return netip.Addr{}, false
	}
	return netip.AddrFromSlice(a.Bytes())
}

// HardwareAddr is its bytes as an address of a link, a part of the datagram. Any size fits but 0.
func (a Attr) HardwareAddr() (net.HardwareAddr, bool) {
	payload := a.Bytes()
	if len(payload) == 0 || a.Sort() != SortBytes {
		return nil, false
	}
	return net.HardwareAddr(payload), true
}

// prefix is its address with a length, where the address has so many bits.
func (a Attr) prefix(bits uint8) (netip.Prefix, bool) {
	addr, found := a.Addr()
	if !found || int(bits) > addr.BitLen() {
		return netip.Prefix{}, false
	}
	return netip.PrefixFrom(addr, int(bits)), true
}

// via is the address in RTA_VIA, struct rtvia: an address family, and as many bytes as it has.
func (a Attr) via() (netip.Addr, bool) {
	payload := a.Bytes()
	if len(payload) < 2 || a.Sort() != SortBytes {
		return netip.Addr{}, false
	}
	addr, found := netip.AddrFromSlice(payload[2:])
	switch family := a.part.order().uint16(payload); {
	case found && family == AF_INET && addr.Is4(), found && family == AF_INET6 && addr.Is6():
		return addr, true
	}
	return netip.Addr{}, false
}

// Attrs goes over attributes of one level, in their order:
//
//	for attrs := message.Attrs(); attrs.Next(); {
//		attr := attrs.Attr()
//	}
type Attrs struct {
	tape          *Tape
	at, next, end uint32
	level         uint8
}

// Next goes to the next attribute, and says whether there is one.
func (it *Attrs) Next() bool {
	for it.next < it.end {
		it.at = it.next
		it.next = inside(it.tape.events[:it.end], it.at)
		if head := &it.tape.events[it.at]; head.Level == it.level && head.Sort != SortNextHop {
			return true
		}
	}
	return false
}

// Attr is the attribute that Next went to.
func (it *Attrs) Attr() Attr { return Attr{part{it.tape, it.at, it.next}} }

// A NextHop is one of the next hops of a route, struct rtnexthop.
type NextHop struct{ part }

const nextHopSize = 8

// Flags are its flags, as RTNH_F_ONLINK.
func (h NextHop) Flags() uint8 { return h.head(nextHopSize)[2] }

// Weight is its share of the packets, from 1 to 256: the kernel's field, rtnh_hops, has one less.
func (h NextHop) Weight() int { return int(h.head(nextHopSize)[3]) + 1 }

// Index is the number of its interface, 0 where it has none.
func (h NextHop) Index() int { return int(int32(h.order().uint32(h.head(nextHopSize)[4:]))) }

// Attrs are its attributes, RTA_*, for a loop over Next.
func (h NextHop) Attrs() Attrs { return h.attrs(h.event().Level + 1) }

// Find is its first attribute of a number.
func (h NextHop) Find(number uint16) (Attr, bool) { return h.find(h.event().Level+1, number) }

// Gateway is its RTA_GATEWAY or, where there is none, the address in its RTA_VIA.
func (h NextHop) Gateway() (netip.Addr, bool) { return h.gateway(h.event().Level + 1) }

// gateway is the address in the first RTA_GATEWAY on this level or, where there is none, in the
// first RTA_VIA.
func (p part) gateway(level uint8) (netip.Addr, bool) {
	if attr, found := p.find(level, RTA_GATEWAY); found {
		return attr.Addr()
	}
	attr, _ := p.find(level, RTA_VIA)
	return attr.via()
}

// NextHops goes over next hops as Attrs goes over attributes.
type NextHops struct {
	tape          *Tape
	at, next, end uint32
}

// Next goes to the next one, and says whether there is one.
func (it *NextHops) Next() bool {
	if it.next >= it.end {
		return false
	}
	it.at = it.next
	it.next = inside(it.tape.events[:it.end], it.at)
	return true
}

// NextHop is the one that Next went to.
func (it *NextHops) NextHop() NextHop { return NextHop{part{it.tape, it.at, it.next}} }
