// Routes prints a line for each next hop of each route of two dumps, by our package: from tables.
package main

import (
	"rtnl.invalid/rtnlc"

	"measure/rtnlc/text"
	"measure/source"
)

func main() { source.Exit(routes()) }

func routes() error {
	from, err := source.Open()
	if err != nil {
		return err
	}
	options := rtnlc.StandardOptions()
	options.Entries = 65536
	session, err := rtnlc.NewSession(&options)
	if err != nil {
		return err
	}
	defer session.Close()
	if err := text.Dump(from, session, rtnlc.RTM_GETLINK, rtnlc.AF_UNSPEC, 1); err != nil {
		return err
	}
	names := map[int]string{}
	links := session.Links()
	for links.Next() {
		names[links.Entry().Index()], _ = links.Entry().Name()
	}
	for index, family := range []uint8{rtnlc.AF_INET, rtnlc.AF_INET6} {
		if err := text.Dump(from, session, rtnlc.RTM_GETROUTE, family, uint32(2+index)); err != nil {
			return err
		}
		table := session.Routes()
		for table.Next() {
			text.PrintRoute(table.Entry(), names)
		}
		if table.Err() != nil {
			return table.Err()
		}
	}
	return links.Err()
}
