// Watch prints a line for each notification of links, addresses, routes and neighbours, by our
// package.
package main

import (
	"io"

	"rtnl.invalid/rtnlc"

	"measure/rtnlc/text"
	"measure/source"
)

func main() { source.Exit(watch()) }

func watch() error {
	from, err := source.Open()
	var tape rtnlc.Tape
	for err == nil {
		var datagram []byte
		var messages []rtnlc.Message
		if datagram, err = from.Receive(); err == nil {
			messages, err = tape.Parse(datagram)
		}
		for _, message := range messages {
			print(message)
		}
	}
	if err == io.EOF {
		return nil
	}
	return err
}

func print(message rtnlc.Message) {
	switch message.Header().Type {
	case rtnlc.RTM_NEWLINK, rtnlc.RTM_NEWADDR, rtnlc.RTM_NEWROUTE, rtnlc.RTM_NEWNEIGH:
		printAs("new", message)
	case rtnlc.RTM_DELLINK, rtnlc.RTM_DELADDR, rtnlc.RTM_DELROUTE, rtnlc.RTM_DELNEIGH:
		printAs("del", message)
	}
}

func printAs(what string, message rtnlc.Message) {
	if link, ok := message.Link(); ok {
		source.Say(what, "link", source.Or(link.Name()), source.Or(link.OperState()))
	} else if addr, ok := message.Address(); ok {
		source.Say(what, "addr", source.Or(addr.Prefix()), addr.Index())
	} else if route, ok := message.Route(); ok {
		source.Say(what, "route", text.Destination(route), source.Or(route.Gateway()),
			source.Or(route.OutIndex()))
	} else if neigh, ok := message.Neighbour(); ok {
		source.Say(what, "neigh", source.Or(neigh.Addr()),
			source.Or(neigh.HardwareAddr()), neigh.Index())
	}
	source.Flush()
}
