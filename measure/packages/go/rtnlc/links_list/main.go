// Links_list prints a line for each interface of a dump, by our package: from a list.
package main

import (
	"rtnl.invalid/rtnlc"

	"measure/rtnlc/text"
	"measure/source"
)

func main() { source.Exit(links()) }

func links() error {
	from, err := source.Open()
	if err != nil {
		return err
	}
	stream, err := rtnlc.NewStream(nil)
	if err != nil {
		return err
	}
	var list rtnlc.List
	if err := text.List(from, stream, &list, rtnlc.RTM_GETLINK, rtnlc.AF_UNSPEC, 1); err != nil {
		return err
	}
	for _, message := range list.Messages() {
		link, _ := message.Link()
		text.PrintLink(link)
	}
	return nil
}
