// Route_add adds a route with one next hop or more, and waits for the kernel's acknowledgement.
//
//	route_add PREFIX via ADDRESS dev DEV [via ADDRESS dev DEV].. [SOCKET]
package main

import (
	"fmt"
	"net"
	"net/netip"
	"os"

	"rtnl.invalid/rtnlc"
	"rtnl.invalid/rtnlc/examples/source"
)

const usage = "route_add PREFIX via ADDRESS dev DEV [via ADDRESS dev DEV].. [SOCKET]"

func main() { source.Exit("route_add", add(os.Args[1:])) }

func add(words []string) error {
	count := (len(words) - 1) / 4 // of ways; behind them may be one word more
	if count == 0 || len(words)-1-4*count > 1 {
		source.Misused(usage)
	}
	to, err := netip.ParsePrefix(words[0])
	if err != nil {
		source.Misused(usage)
	}
	ways, err := waysOf(words[1 : 1+4*count])
	if err != nil {
		return err
	}
	socket, err := source.Open(0, source.Arg(2+4*count))
	if err != nil {
		return err
	}
	request := rtnlc.RouteRequest{Dst: to, Table: rtnlc.RT_TABLE_MAIN,
		Protocol: rtnlc.RTPROT_STATIC, Type: rtnlc.RTN_UNICAST}
	if len(ways) == 1 {
		request.Gateway, request.OutIndex = ways[0].Gateway, &ways[0].Index
	} else {
		request.NextHops = ways
	}
	return socket.Change(rtnlc.Add, request)
}

// waysOf are those of the words, four for each.
func waysOf(words []string) (ways []rtnlc.NextHopRequest, err error) {
	for ; len(words) > 0; words = words[4:] {
		gateway, err := netip.ParseAddr(words[1])
		if words[0] != "via" || err != nil || words[2] != "dev" {
			source.Misused(usage)
		}
		device, err := net.InterfaceByName(words[3])
		if err != nil {
			return nil, fmt.Errorf("no interface %s", words[3])
		}
		ways = append(ways, rtnlc.NextHopRequest{Gateway: gateway, Index: device.Index})
	}
	return ways, nil
}
