// Links_stream prints a line for each interface of a dump, by our package: as they come.
package main

import (
	"rtnl.invalid/rtnlc"

	"measure/rtnlc/text"
	"measure/source"
)

func main() { source.Exit(links()) }

func links() error {
	from, err := source.Open()
	if err != nil {
		return err
	}
	stream, err := rtnlc.NewStream(nil)
	if err != nil {
		return err
	}
	return text.Stream(from, stream, rtnlc.RTM_GETLINK, 0, 1, func(message rtnlc.Message) {
		if link, isLink := message.Link(); isLink {
			text.PrintLink(link)
		}
	})
}
