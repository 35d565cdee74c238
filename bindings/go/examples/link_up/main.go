// Link_up brings an interface up, and waits for the kernel's acknowledgement.
//
//	link_up DEV [SOCKET]
package main

import (
	"os"

	"rtnl.invalid/rtnlc"
	"rtnl.invalid/rtnlc/examples/source"
)

func main() {
	if len(os.Args) < 2 || len(os.Args) > 3 {
		source.Misused("link_up DEV [SOCKET]")
	}
	source.Exit("link_up", up(os.Args[1]))
}

func up(name string) error {
	socket, err := source.Open(0, source.Arg(2))
	if err != nil {
		return err
	}
	return socket.Change(rtnlc.Set, rtnlc.LinkRequest{Name: name, Up: rtnlc.PointerTo(true)})
}
