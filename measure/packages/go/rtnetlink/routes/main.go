// Routes prints a line for each next hop of each route of two dumps, by rtnetlink.
package main

import (
	"syscall"

	"github.com/jsimonetti/rtnetlink"

	"measure/rtnetlink/socket"
	"measure/rtnetlink/text"
	"measure/source"
)

func main() { source.Exit(routes()) }

func routes() error {
	conn, err := socket.Dial()
	if err != nil {
		return err
	}
	messages, err := text.Dump(conn, syscall.RTM_GETLINK, &rtnetlink.LinkMessage{})
	if err != nil {
		return err
	}
	names := map[uint32]string{}
	for _, message := range messages {
		var link rtnetlink.LinkMessage
		if err := link.UnmarshalBinary(message.Data); err != nil {
			return err
		}
		names[link.Index] = link.Attributes.Name
	}
	for _, family := range []uint8{syscall.AF_INET, syscall.AF_INET6} {
		request := &rtnetlink.RouteMessage{Family: family}
		messages, err := text.Dump(conn, syscall.RTM_GETROUTE, request)
		if err != nil {
			return err
		}
		for _, message := range messages {
			var route rtnetlink.RouteMessage
			if err := route.UnmarshalBinary(message.Data); err != nil {
				return err
			}
			print(route, names)
		}
	}
	return nil
}

func print(route rtnetlink.RouteMessage, names map[uint32]string) {
	table := route.Attributes.Table
	if table == 0 {
		table = uint32(route.Table)
	}
	line := func(gateway any, index uint32) {
		name, found := names[index]
		source.Say(text.Destination(route), gateway, source.Or(name, found), table)
	}
	if route.Attributes.Multipath == nil {
		line(text.IP(route.Attributes.Gateway), route.Attributes.OutIface)
	}
	for _, hop := range route.Attributes.Multipath {
		line(text.IP(hop.Gateway), hop.Hop.IfIndex)
	}
}
