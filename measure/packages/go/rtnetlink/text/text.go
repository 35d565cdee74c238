// Package text has what the programs over rtnetlink print, and how they dump.
package text

import (
	"encoding"
	"errors"
	"fmt"
	"net"

	"github.com/jsimonetti/rtnetlink"
	"github.com/mdlayher/netlink"

	"measure/source"
)

var states = []string{
	"UNKNOWN", "NOTPRESENT", "DOWN", "LOWERLAYERDOWN", "TESTING", "DORMANT", "UP",
}

// Dump is the messages of a dump, of which this is the request.
func Dump(conn *netlink.Conn, kind uint16, request encoding.BinaryMarshaler) (
	[]netlink.Message, error) {
	data, err := request.MarshalBinary()
	if err != nil {
		return nil, err
	}
	messages, err := conn.Execute(netlink.Message{
		Header: netlink.Header{Type: netlink.HeaderType(kind), Flags: netlink.Request | netlink.Dump},
		Data:   data,
	})
	for _, message := range messages {
		if message.Header.Flags&netlink.DumpInterrupted != 0 {
			return nil, errors.New("interrupted")
		}
	}
	return messages, err
}

// State is the word of a link's operational state.
func State(link rtnetlink.LinkMessage) any {
	if state := int(link.Attributes.OperationalState); state < len(states) {
		return states[state]
	}
	return "-"
}

// IP is an address, or a dash.
func IP(ip net.IP) any { return source.Or(ip, ip != nil) }

// Hardware is a hardware address, or a dash.
func Hardware(address net.HardwareAddr) any { return source.Or(address, len(address) > 0) }

// IndexText is the number of an interface, or a dash.
func IndexText(index uint32) any { return source.Or(index, index != 0) }

// A Prefix is an address with its length.
type Prefix struct {
	IP     net.IP
	Length uint8
}

// String is the prefix as text.
func (p Prefix) String() string { return fmt.Sprintf("%s/%d", p.IP, p.Length) }

// Destination is where a route leads.
func Destination(route rtnetlink.RouteMessage) any {
	if route.DstLength == 0 {
		return "default"
	}
	return Prefix{route.Attributes.Dst, route.DstLength}
}
