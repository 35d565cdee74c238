// Watch prints a line for each notification of links, addresses, routes and neighbours, by
// rtnetlink.
package main

import (
	"encoding"
	"errors"
	"io"
	"syscall"

	"github.com/jsimonetti/rtnetlink"

	"measure/rtnetlink/socket"
	"measure/rtnetlink/text"
	"measure/source"
)

func main() { source.Exit(watch()) }

func watch() error {
	conn, err := socket.Dial()
	for err == nil {
		messages, failed := conn.Receive()
		if errors.Is(failed, io.EOF) {
			return nil
		}
		err = failed
		for _, message := range messages {
			if err = print(uint16(message.Header.Type), message.Data); err != nil {
				return err
			}
		}
	}
	return err
}

func print(kind uint16, data []byte) error {
	what := "new"
	switch kind {
	case syscall.RTM_DELLINK, syscall.RTM_DELADDR, syscall.RTM_DELROUTE, syscall.RTM_DELNEIGH:
		what = "del"
	}
	var link rtnetlink.LinkMessage
	var address rtnetlink.AddressMessage
	var route rtnetlink.RouteMessage
	var neigh rtnetlink.NeighMessage
	var into encoding.BinaryUnmarshaler
	switch kind {
	case syscall.RTM_NEWLINK, syscall.RTM_DELLINK:
		into = &link
	case syscall.RTM_NEWADDR, syscall.RTM_DELADDR:
		into = &address
	case syscall.RTM_NEWROUTE, syscall.RTM_DELROUTE:
		into = &route
	case syscall.RTM_NEWNEIGH, syscall.RTM_DELNEIGH:
		into = &neigh
	default:
		return nil
	}
	if err := into.UnmarshalBinary(data); err != nil {
		return err
	}
	switch into {
	case &link:
		source.Say(what, "link", link.Attributes.Name, text.State(link))
	case &address:
		prefix := text.Prefix{IP: address.Attributes.Address, Length: address.PrefixLength}
		source.Say(what, "addr", prefix, address.Index)
	case &route:
		source.Say(what, "route", text.Destination(route),
			text.IP(route.Attributes.Gateway), text.IndexText(route.Attributes.OutIface))
	case &neigh:
		source.Say(what, "neigh", text.IP(neigh.Attributes.Address),
			text.Hardware(neigh.Attributes.LLAddress), neigh.Index)
	}
	return source.Flush()
}
