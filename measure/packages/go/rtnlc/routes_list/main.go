// Routes_list prints a line for each next hop of each route of two dumps, by our package: from
// lists.
package main

import (
	"rtnl.invalid/rtnlc"

	"measure/rtnlc/text"
	"measure/source"
)

func main() { source.Exit(routes()) }

func routes() error {
	from, err := source.Open()
	if err != nil {
		return err
	}
	stream, err := rtnlc.NewStream(nil)
	if err != nil {
		return err
	}
	var list rtnlc.List
	if err := text.List(from, stream, &list, rtnlc.RTM_GETLINK, rtnlc.AF_UNSPEC, 1); err != nil {
		return err
	}
	names := map[int]string{}
	for _, message := range list.Messages() {
		link, _ := message.Link()
		names[link.Index()], _ = link.Name()
	}
	for index, family := range []uint8{rtnlc.AF_INET, rtnlc.AF_INET6} {
		err := text.List(from, stream, &list, rtnlc.RTM_GETROUTE, family, uint32(2+index))
		if err != nil {
			return err
		}
		for _, message := range list.Messages() {
			route, _ := message.Route()
			text.PrintRoute(route, names)
		}
	}
	return nil
}
