package rtnlc

// The types of messages that are no family's, in Header.Type.
const (
	NLMSG_NOOP    = 1
	NLMSG_ERROR   = 2
	NLMSG_DONE    = 3
	NLMSG_OVERRUN = 4
)

// The types of the messages of links, addresses, routes, neighbours and rules.
const (
	RTM_NEWLINK  = 16
	RTM_DELLINK  = 17
	RTM_GETLINK  = 18
	RTM_SETLINK  = 19
	RTM_NEWADDR  = 20
	RTM_DELADDR  = 21
	RTM_GETADDR  = 22
	RTM_NEWROUTE = 24
	RTM_DELROUTE = 25
	RTM_GETROUTE = 26
	RTM_NEWNEIGH = 28
	RTM_DELNEIGH = 29
	RTM_GETNEIGH = 30
	RTM_NEWRULE  = 32
	RTM_DELRULE  = 33
	RTM_GETRULE  = 34
)

// The flags of a message, in Header.Flags.
const (
	NLM_F_REQUEST       = 0x1
	NLM_F_MULTI         = 0x2
	NLM_F_ACK           = 0x4
	NLM_F_ECHO          = 0x8
	NLM_F_DUMP_INTR     = 0x10
	NLM_F_DUMP_FILTERED = 0x20
	NLM_F_ROOT          = 0x100
	NLM_F_MATCH         = 0x200
	NLM_F_DUMP          = 0x300
	NLM_F_REPLACE       = 0x100
	NLM_F_EXCL          = 0x200
	NLM_F_CREATE        = 0x400
	NLM_F_APPEND        = 0x800
)

// The flags of an attribute, beside its number where one is built: that it holds attributes, and
// that what it holds is in network byte order.
const (
	NLA_F_NESTED        = 0x8000
	NLA_F_NET_BYTEORDER = 0x4000
)

// The groups of notifications that a netlink socket can join.
const (
	RTNLGRP_LINK        = 1
	RTNLGRP_NEIGH       = 3
	RTNLGRP_IPV4_IFADDR = 5
	RTNLGRP_IPV4_ROUTE  = 7
	RTNLGRP_IPV4_RULE   = 8
	RTNLGRP_IPV6_IFADDR = 9
	RTNLGRP_IPV6_ROUTE  = 11
	RTNLGRP_IPV6_RULE   = 19
)

// Address families, as the heads of messages have them. A request for AF_UNSPEC asks for all.
const (
	AF_UNSPEC = 0
	AF_INET   = 2
	AF_BRIDGE = 7
	AF_INET6  = 10
)

// The flags of a link, in Link.Flags.
const (
	IFF_UP          = 0x1
	IFF_BROADCAST   = 0x2
	IFF_DEBUG       = 0x4
	IFF_LOOPBACK    = 0x8
	IFF_POINTOPOINT = 0x10
	IFF_NOTRAILERS  = 0x20
	IFF_RUNNING     = 0x40
	IFF_NOARP       = 0x80
	IFF_PROMISC     = 0x100
	IFF_ALLMULTI    = 0x200
	IFF_MASTER      = 0x400
	IFF_SLAVE       = 0x800
	IFF_MULTICAST   = 0x1000
	IFF_PORTSEL     = 0x2000
	IFF_AUTOMEDIA   = 0x4000
	IFF_DYNAMIC     = 0x8000
	IFF_LOWER_UP    = 0x10000
	IFF_DORMANT     = 0x20000
	IFF_ECHO        = 0x40000
)

// The operational states of a link.
const (
	IF_OPER_UNKNOWN        OperState = 0
	IF_OPER_NOTPRESENT     OperState = 1
	IF_OPER_DOWN           OperState = 2
	IF_OPER_LOWERLAYERDOWN OperState = 3
	IF_OPER_TESTING        OperState = 4
	IF_OPER_DORMANT        OperState = 5
	IF_OPER_UP             OperState = 6
)

// The flags of an address, in Address.Flags.
const (
	IFA_F_SECONDARY      = 0x1
	IFA_F_NODAD          = 0x2
	IFA_F_OPTIMISTIC     = 0x4
	IFA_F_DADFAILED      = 0x8
	IFA_F_HOMEADDRESS    = 0x10
	IFA_F_DEPRECATED     = 0x20
	IFA_F_TENTATIVE      = 0x40
	IFA_F_PERMANENT      = 0x80
	IFA_F_MANAGETEMPADDR = 0x100
	IFA_F_NOPREFIXROUTE  = 0x200
	IFA_F_MCAUTOJOIN     = 0x400
	IFA_F_STABLE_PRIVACY = 0x800
)

// The tables of routes that have a name.
const (
	RT_TABLE_UNSPEC  = 0
	RT_TABLE_COMPAT  = 252
	RT_TABLE_DEFAULT = 253
	RT_TABLE_MAIN    = 254
	RT_TABLE_LOCAL   = 255
)

// The types of routes, in Route.Type.
const (
	RTN_UNSPEC      = 0
	RTN_UNICAST     = 1
	RTN_LOCAL       = 2
	RTN_BROADCAST   = 3
	RTN_ANYCAST     = 4
	RTN_MULTICAST   = 5
	RTN_BLACKHOLE   = 6
	RTN_UNREACHABLE = 7
	RTN_PROHIBIT    = 8
	RTN_THROW       = 9
	RTN_NAT         = 10
	RTN_XRESOLVE    = 11
)

// Where a route came from, in Route.Protocol.
const (
	RTPROT_UNSPEC   = 0
	RTPROT_REDIRECT = 1
	RTPROT_KERNEL   = 2
	RTPROT_BOOT     = 3
	RTPROT_STATIC   = 4
	RTPROT_RA       = 9
	RTPROT_DHCP     = 16
	RTPROT_BGP      = 186
	RTPROT_OSPF     = 188
)

// How far an address or a destination is, in Address.Scope and Route.Scope.
const (
	RT_SCOPE_UNIVERSE = 0
	RT_SCOPE_SITE     = 200
	RT_SCOPE_LINK     = 253
	RT_SCOPE_HOST     = 254
	RT_SCOPE_NOWHERE  = 255
)

// The flags of a next hop, in NextHop.Flags.
const (
	RTNH_F_DEAD       = 0x1
	RTNH_F_PERVASIVE  = 0x2
	RTNH_F_ONLINK     = 0x4
	RTNH_F_OFFLOAD    = 0x8
	RTNH_F_LINKDOWN   = 0x10
	RTNH_F_UNRESOLVED = 0x20
)

// The states of a neighbour, in Neighbour.State.
const (
	NUD_INCOMPLETE = 0x1
	NUD_REACHABLE  = 0x2
	NUD_STALE      = 0x4
	NUD_DELAY      = 0x8
	NUD_PROBE      = 0x10
	NUD_FAILED     = 0x20
	NUD_NOARP      = 0x40
	NUD_PERMANENT  = 0x80
)

// The flags of a neighbour, in Neighbour.Flags.
const (
	NTF_USE         = 0x1
	NTF_SELF        = 0x2
	NTF_MASTER      = 0x4
	NTF_PROXY       = 0x8
	NTF_EXT_LEARNED = 0x10
	NTF_OFFLOADED   = 0x20
	NTF_STICKY      = 0x40
	NTF_ROUTER      = 0x80
)

// What a rule does, in Rule.Action.
const (
	FR_ACT_TO_TBL      = 1
	FR_ACT_GOTO        = 2
	FR_ACT_NOP         = 3
	FR_ACT_BLACKHOLE   = 6
	FR_ACT_UNREACHABLE = 7
	FR_ACT_PROHIBIT    = 8
)
