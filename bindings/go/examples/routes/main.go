// Routes prints a line for each next hop of each route, IPv4 and then IPv6: its destination,
// gateway, interface and table.
//
//	routes [SOCKET]
package main

import (
	"fmt"

	"rtnl.invalid/rtnlc"
	"rtnl.invalid/rtnlc/examples/source"
)

func main() { source.Exit("routes", routes()) }

func routes() error {
	socket, err := source.Open(0, source.Arg(1))
	if err != nil {
		return err
	}
	var kept rtnlc.List
	if err := socket.Dump(&kept, rtnlc.RTM_GETLINK, rtnlc.AF_UNSPEC); err != nil {
		return err
	}
	names := map[int]string{}
	for _, message := range kept.Messages() {
		link, _ := message.Link()
		names[link.Index()], _ = link.Name()
	}
	for _, family := range []uint8{rtnlc.AF_INET, rtnlc.AF_INET6} {
		if err := socket.Dump(&kept, rtnlc.RTM_GETROUTE, family); err != nil {
			return err
		}
		for _, message := range kept.Messages() {
			route, _ := message.Route()
			show(route, names)
		}
	}
	return nil
}

func show(route rtnlc.Route, names map[int]string) {
	destination := "default"
	if !route.IsDefault() {
		destination = source.Or(route.Dst())
	}
	line := func(gateway string, index int) {
		name, found := names[index]
		fmt.Println(destination, gateway, source.Or(name, found), route.Table())
	}
	if _, found := route.Find(rtnlc.RTA_MULTIPATH); !found {
		index, _ := route.OutIndex()
		line(source.Or(route.Gateway()), index)
	}
	for hops := route.NextHops(); hops.Next(); {
		line(source.Or(hops.NextHop().Gateway()), hops.NextHop().Index())
	}
}
