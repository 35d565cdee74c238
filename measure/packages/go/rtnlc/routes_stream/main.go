// Routes_stream prints a line for each next hop of each route of two dumps, by our package: as
// they come.
package main

import (
	"rtnl.invalid/rtnlc"

	"measure/rtnlc/text"
	"measure/source"
)

func main() { source.Exit(routes()) }

func routes() error {
	from, err := source.Open()
	if err != nil {
		return err
	}
	stream, err := rtnlc.NewStream(nil)
	if err != nil {
		return err
	}
	names := map[int]string{}
	err = text.Stream(from, stream, rtnlc.RTM_GETLINK, 0, 1, func(message rtnlc.Message) {
		if link, isLink := message.Link(); isLink {
			names[link.Index()], _ = link.Name()
		}
	})
	for seq := uint32(2); err == nil && seq <= 3; seq++ {
		family := []uint8{rtnlc.AF_INET, rtnlc.AF_INET6}[seq-2]
		err = text.Stream(from, stream, rtnlc.RTM_GETROUTE, family, seq, func(message rtnlc.Message) {
			if route, isRoute := message.Route(); isRoute {
				text.PrintRoute(route, names)
			}
		})
	}
	return err
}
