// Package text has what the programs over our package print, and how they dump.
package text

import (
	"rtnl.invalid/rtnlc"

	"measure/source"
)

// Dump reads a dump into the session's table.
func Dump(from *source.Source, session *rtnlc.Session, kind uint16, family uint8,
	seq uint32) error {
	request, err := session.Begin(kind, family, seq, source.Port)
	if err == nil {
		err = from.Send(request)
	}
	for fed := (rtnlc.Fed{}); err == nil && !fed.Ended; {
		var datagram []byte
		if datagram, err = from.Receive(); err == nil {
			fed, err = session.Feed(datagram)
		}
	}
	if err == nil {
		err = session.Status().Err()
	}
	return err
}

// Stream hands out a dump as it comes.
func Stream(from *source.Source, stream *rtnlc.Stream, kind uint16, family uint8, seq uint32,
	each func(rtnlc.Message)) error {
	request, err := stream.Begin(kind, family, seq, source.Port)
	if err == nil {
		err = from.Send(request)
	}
	for fed := (rtnlc.Fed{}); err == nil && !fed.Ended; {
		var datagram []byte
		if datagram, err = from.Receive(); err == nil {
			fed, err = stream.Feed(datagram)
		}
		for _, message := range fed.Messages {
			each(message)
		}
	}
	if err == nil {
		err = stream.Status().Err()
	}
	return err
}

// List keeps the entries of a dump in a list, in place of what that has.
func List(from *source.Source, stream *rtnlc.Stream, list *rtnlc.List, kind uint16, family uint8,
	seq uint32) error {
	list.Reset()
	return Stream(from, stream, kind, family, seq, func(message rtnlc.Message) {
		list.Append(message)
	})
}

// PrintLink prints the line of a link.
func PrintLink(link rtnlc.Link) {
	source.Say(source.Or(link.Name()), source.Or(link.OperState()), source.Or(link.MTU()),
		source.Or(link.HardwareAddr()))
}

// Destination is where a route leads.
func Destination(route rtnlc.Route) any {
	if route.IsDefault() {
		return "default"
	}
	return source.Or(route.Dst())
}

// PrintRoute prints a line for each next hop.
func PrintRoute(route rtnlc.Route, names map[int]string) {
	line := func(gateway any, index int) {
		name, found := names[index]
		source.Say(Destination(route), gateway, source.Or(name, found), route.Table())
	}
	if _, found := route.Find(rtnlc.RTA_MULTIPATH); !found {
		index, _ := route.OutIndex()
		line(source.Or(route.Gateway()), index)
	}
	for hops := route.NextHops(); hops.Next(); {
		hop := hops.NextHop()
		line(source.Or(hop.Gateway()), hop.Index())
	}
}
