// Links prints a line for each interface of a dump, by rtnetlink.
package main

import (
	"syscall"

	"github.com/jsimonetti/rtnetlink"

	"measure/rtnetlink/socket"
	"measure/rtnetlink/text"
	"measure/source"
)

func main() { source.Exit(links()) }

func links() error {
	conn, err := socket.Dial()
	if err != nil {
		return err
	}
	messages, err := text.Dump(conn, syscall.RTM_GETLINK, &rtnetlink.LinkMessage{})
	if err != nil {
		return err
	}
	for _, message := range messages {
		var link rtnetlink.LinkMessage
		if err := link.UnmarshalBinary(message.Data); err != nil {
			return err
		}
		source.Say(link.Attributes.Name, text.State(link), link.Attributes.MTU,
			text.Hardware(link.Attributes.Address))
	}
	return nil
}
