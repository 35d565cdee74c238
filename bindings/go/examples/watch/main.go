// Watch prints what changes of links, addresses, routes and neighbours, until it is interrupted.
//
//	watch [SOCKET]
package main

import (
	"fmt"

	"rtnl.invalid/rtnlc"
	"rtnl.invalid/rtnlc/examples/source"
)

const groups = 1<<(rtnlc.RTNLGRP_LINK-1) | 1<<(rtnlc.RTNLGRP_NEIGH-1) |
	1<<(rtnlc.RTNLGRP_IPV4_IFADDR-1) | 1<<(rtnlc.RTNLGRP_IPV6_IFADDR-1) |
	1<<(rtnlc.RTNLGRP_IPV4_ROUTE-1) | 1<<(rtnlc.RTNLGRP_IPV6_ROUTE-1)

func main() {
	socket, err := source.Open(groups, source.Arg(1))
	for tape := new(rtnlc.Tape); err == nil; {
		var datagram []byte
		var messages []rtnlc.Message
		if datagram, err = socket.Receive(); err == nil {
			messages, err = tape.Parse(datagram)
		}
		for _, message := range messages {
			show(message)
		}
	}
	source.Exit("watch", err)
}

func show(message rtnlc.Message) {
	what := "new"
	switch message.Header().Type {
	case rtnlc.RTM_DELLINK, rtnlc.RTM_DELADDR, rtnlc.RTM_DELROUTE, rtnlc.RTM_DELNEIGH:
		what = "del"
	case rtnlc.RTM_SETLINK:
		return
	}
	if link, ok := message.Link(); ok {
		state, found := link.OperState()
		found = found && state <= rtnlc.IF_OPER_UP
		fmt.Println(what, "link", source.Or(link.Name()), source.Or(state, found))
	} else if addr, ok := message.Address(); ok {
		fmt.Println(what, "addr", source.Or(addr.Prefix()), addr.Index())
	} else if neigh, ok := message.Neighbour(); ok {
		fmt.Println(what, "neigh", source.Or(neigh.Addr()), source.Or(neigh.HardwareAddr()),
			neigh.Index())
	} else if route, ok := message.Route(); ok {
		destination := "default"
		if !route.IsDefault() {
			destination = source.Or(route.Dst())
		}
		fmt.Println(what, "route", destination, source.Or(route.Gateway()),
			source.Or(route.OutIndex()))
	}
}
