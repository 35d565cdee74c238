package rtnlc

import (
	"net"
	"net/netip"
	"strconv"
)

// A View is one of the five views of a message.
type View interface {
	Link | Address | Route | Neighbour | Rule
}

// A Link is a view of a message of an interface, whose body begins with struct ifinfomsg.
type Link struct{ Message }

// Link is the message as a link: RTM_NEWLINK, RTM_DELLINK or RTM_SETLINK.
func (m Message) Link() (Link, bool) {
	switch m.event().Number {
	case RTM_NEWLINK, RTM_DELLINK, RTM_SETLINK:
		return Link{m}, true
	}
	return Link{}, false
}

// Family is the address family, AF_UNSPEC or AF_BRIDGE.
func (l Link) Family() uint8 { return l.byteAt(0) }

// Type is the type of the hardware, ARPHRD_* of the kernel.
func (l Link) Type() uint16 { return l.uint16At(2) }

// Index is the number of the interface.
func (l Link) Index() int { return int(int32(l.uint32At(4))) }

// Flags are its flags, as IFF_UP.
func (l Link) Flags() uint32 { return l.uint32At(8) }

// Name is its IFLA_IFNAME.
func (l Link) Name() (string, bool) { return l.first(IFLA_IFNAME).Text() }

// MTU is its IFLA_MTU, in bytes.
func (l Link) MTU() (uint32, bool) { return l.first(IFLA_MTU).Uint32() }

// HardwareAddr is its IFLA_ADDRESS, a part of the datagram.
func (l Link) HardwareAddr() (net.HardwareAddr, bool) {
	return l.first(IFLA_ADDRESS).HardwareAddr()
}

// Master is the number of the interface that it is a port of, its IFLA_MASTER.
func (l Link) Master() (int, bool) { return l.first(IFLA_MASTER).index() }

// Kind is what the interface is, as "bridge": IFLA_INFO_KIND in IFLA_LINKINFO.
func (l Link) Kind() (string, bool) {
	kind, _ := l.first(IFLA_LINKINFO).Find(IFLA_INFO_KIND)
	return kind.Text()
}

// OperState is its IFLA_OPERSTATE.
func (l Link) OperState() (OperState, bool) {
	state, found := l.first(IFLA_OPERSTATE).Uint8()
	return OperState(state), found
}

// An OperState is the operational state of a link (RFC 2863), as IF_OPER_UP.
type OperState uint8

var operStates = [...]string{
	"UNKNOWN", "NOTPRESENT", "DOWN", "LOWERLAYERDOWN", "TESTING", "DORMANT", "UP",
}

// String is the word that `ip link` has for it, as "UP", or its number.
func (s OperState) String() string {
	if int(s) < len(operStates) {
		return operStates[s]
	}
	return strconv.Itoa(int(s))
}

// An Address is a view of a message of an address of an interface, whose body begins with struct
// ifaddrmsg.
type Address struct{ Message }

// Address is the message as an address: RTM_NEWADDR or RTM_DELADDR.
func (m Message) Address() (Address, bool) {
	switch m.event().Number {
	case RTM_NEWADDR, RTM_DELADDR:
		return Address{m}, true
	}
	return Address{}, false
}

// Family is the address family, AF_INET or AF_INET6.
func (a Address) Family() uint8 { return a.byteAt(0) }

// Prefix is its IFA_ADDRESS with the length of its network. Of a link between two hosts that is
// the other one's address.
func (a Address) Prefix() (netip.Prefix, bool) { return a.first(IFA_ADDRESS).prefix(a.byteAt(1)) }

// Local is its IFA_LOCAL, which addresses of IPv4 have.
func (a Address) Local() (netip.Addr, bool) { return a.first(IFA_LOCAL).Addr() }

// Label is its IFA_LABEL, which addresses of IPv4 have.
func (a Address) Label() (string, bool) { return a.first(IFA_LABEL).Text() }

// Flags are its IFA_FLAGS, as IFA_F_PERMANENT, or the lowest eight, in its head, where there are
// none.
func (a Address) Flags() uint32 {
	if flags, found := a.first(IFA_FLAGS).Uint32(); found {
		return flags
	}
	return uint32(a.byteAt(2))
}

// Scope is how far it is valid, as RT_SCOPE_LINK.
func (a Address) Scope() uint8 { return a.byteAt(3) }

// Index is the number of the interface.
func (a Address) Index() int { return int(a.uint32At(4)) }

// A Neighbour is a view of a message of a neighbour, whose body begins with struct ndmsg.
type Neighbour struct{ Message }

// Neighbour is the message as a neighbour: RTM_NEWNEIGH or RTM_DELNEIGH.
func (m Message) Neighbour() (Neighbour, bool) {
	switch m.event().Number {
	case RTM_NEWNEIGH, RTM_DELNEIGH:
		return Neighbour{m}, true
	}
	return Neighbour{}, false
}

// Family is the address family: AF_INET, AF_INET6, or AF_BRIDGE for an entry of a bridge.
func (n Neighbour) Family() uint8 { return n.byteAt(0) }

// Index is the number of the interface behind which it is.
func (n Neighbour) Index() int { return int(int32(n.uint32At(4))) }

// State is its state, as NUD_REACHABLE.
func (n Neighbour) State() uint16 { return n.uint16At(8) }

// Flags are its flags, as NTF_ROUTER.
func (n Neighbour) Flags() uint8 { return n.byteAt(10) }

// Type is the type of a route to it, as RTN_UNICAST.
func (n Neighbour) Type() uint8 { return n.byteAt(11) }

// Addr is its NDA_DST.
func (n Neighbour) Addr() (netip.Addr, bool) { return n.first(NDA_DST).Addr() }

// HardwareAddr is its NDA_LLADDR, a part of the datagram.
func (n Neighbour) HardwareAddr() (net.HardwareAddr, bool) {
	return n.first(NDA_LLADDR).HardwareAddr()
}
