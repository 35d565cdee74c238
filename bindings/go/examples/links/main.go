// Links prints a line for each interface: its name, state, MTU and hardware address.
//
//	links [SOCKET]
package main

import (
	"fmt"

	"rtnl.invalid/rtnlc"
	"rtnl.invalid/rtnlc/examples/source"
)

func main() { source.Exit("links", links()) }

func links() error {
	socket, err := source.Open(0, source.Arg(1))
	if err != nil {
		return err
	}
	var kept rtnlc.List
	if err := socket.Dump(&kept, rtnlc.RTM_GETLINK, rtnlc.AF_UNSPEC); err != nil {
		return err
	}
	for _, message := range kept.Messages() {
		link, _ := message.Link()
		state, found := link.OperState()
		fmt.Println(source.Or(link.Name()), source.Or(state, found && state <= rtnlc.IF_OPER_UP),
			source.Or(link.MTU()), source.Or(link.HardwareAddr()))
	}
	return nil
}
