package rtnlc_test

import (
	"encoding/hex"
	"errors"
	"fmt"
	"net/netip"
	"strings"

	"rtnl.invalid/rtnlc"
)

// received is what a socket would have received: messages as a kernel sent them, in hexadecimal.
func received(text string) []byte {
	datagram, err := hex.DecodeString(strings.Join(strings.Fields(text), ""))
	if err != nil {
		panic(err)
	}
	return datagram
}

const (
	// A link with an index, a name and an MTU.
	loopback = `30000000 1000 0200 01000000 01000000 0000 0403 01000000 49000100 00000000
		0700 0300 6c6f0000 0800 0400 00000100`
	// The end of the dump.
	ended = `14000000 0300 0200 01000000 01000000 00000000`
	// A default route with a gateway, and one with two next hops.
	routes = `2c000000 1800 0200 01000000 01000000 02000000 fe030001 00000000
		0800 0500 c0000201 0800 0400 02000000
		40000000 1800 0200 01000000 01000000 02180000 fe030001 00000000 0800 0100 c6336400
		1c00 0900 1000 0000 02000000 0800 0500 c0000202 0800 0001 03000000`
)

func Example() {
	messages, err := rtnlc.Parse(received(loopback))
	if err != nil {
		fmt.Println(err)
		return
	}
	for _, message := range messages {
		if link, ok := message.Link(); ok {
			name, _ := link.Name()
			mtu, _ := link.MTU()
			_, hasMaster := link.Master()
			fmt.Println(link.Index(), name, mtu, hasMaster)
		}
	}
	// Output: 1 lo 65536 false
}

func ExampleSession() {
	session, err := rtnlc.NewSession(nil)
	if err != nil {
		fmt.Println(err)
		return
	}
	defer session.Close()
	const seq, port = 1, 1 // the next number, and the port id of the socket
	request, err := session.Begin(rtnlc.RTM_GETLINK, rtnlc.AF_UNSPEC, seq, port)
	fmt.Println(len(request), "bytes to be sent", err)
	for _, datagram := range [][]byte{received(loopback), received(ended)} {
		fed, err := session.Feed(datagram)
		fmt.Println(fed.Items, fed.Ended, err)
	}
	fmt.Println(session.Status().Err())
	err = session.Links().Each(func(link rtnlc.Link) {
		name, _ := link.Name()
		fmt.Println(link.Index(), name)
	})
	fmt.Println(err)
	// Output:
	// 32 bytes to be sent <nil>
	// 1 false <nil>
	// 0 true <nil>
	// <nil>
	// 1 lo
	// <nil>
}

func ExampleStream() {
	stream, err := rtnlc.NewStream(nil)
	if err == nil {
		_, err = stream.Begin(rtnlc.RTM_GETROUTE, rtnlc.AF_INET, 1, 1)
	}
	if err != nil {
		fmt.Println(err)
		return
	}
	fed, err := stream.Feed(received(routes))
	for _, message := range fed.Messages {
		route, _ := message.Route()
		dst, found := route.Dst()
		fmt.Println(dst, found, route.IsDefault())
	}
	fmt.Println(fed.Ended, err)
	// Output:
	// invalid Prefix false true
	// 198.51.100.0/24 true false
	// false <nil>
}

// A whole dump is kept, and read once it is complete.
func ExampleList() {
	stream, err := rtnlc.NewStream(nil)
	if err == nil {
		_, err = stream.Begin(rtnlc.RTM_GETLINK, rtnlc.AF_UNSPEC, 1, 1)
	}
	var list rtnlc.List
	for _, datagram := range [][]byte{received(loopback), received(ended)} {
		if err == nil {
			var fed rtnlc.Fed
			fed, err = stream.Feed(datagram)
			list.Append(fed.Messages...)
		}
	}
	if err == nil {
		err = stream.Status().Err() // where it is ErrInterrupted: list.Reset, and begin another
	}
	if err != nil {
		fmt.Println(err)
		return
	}
	fmt.Println(list.Size())
	for _, message := range list.Messages() {
		link, _ := message.Link()
		name, _ := link.Name()
		fmt.Println(link.Index(), name)
	}
	// Output:
	// 1 48
	// 1 lo
}

// One Tape reads all datagrams of a socket, and takes no memory for each.
func ExampleTape() {
	var tape rtnlc.Tape
	for _, datagram := range [][]byte{received(loopback), received(ended)} {
		messages, err := tape.Parse(datagram)
		fmt.Println(len(messages), len(tape.Events()), err)
	}
	// Output:
	// 1 3 <nil>
	// 1 1 <nil>
}

func ExampleRoute_NextHops() {
	messages, _ := rtnlc.Parse(received(routes))
	for _, message := range messages {
		route, _ := message.Route()
		if gateway, found := route.Gateway(); found {
			index, _ := route.OutIndex()
			fmt.Println(gateway, "by", index)
		}
		for hops := route.NextHops(); hops.Next(); {
			gateway, found := hops.NextHop().Gateway()
			fmt.Println(gateway, found, "by", hops.NextHop().Index())
		}
	}
	// Output:
	// 192.0.2.1 by 2
	// 192.0.2.2 true by 2
	// invalid IP false by 3
}

// The attributes of a message, whatever the package has a view of.
func ExampleAttrs() {
	messages, _ := rtnlc.Parse(received(loopback))
	for attrs := messages[0].Attrs(); attrs.Next(); {
		attr := attrs.Attr()
		name, _ := attr.Name()
		number, isNumber := attr.Uint32()
		fmt.Printf("%d %s % x %d %v\n", attr.Number(), name, attr.Bytes(), number, isNumber)
	}
	// Output:
	// 3 IFLA_IFNAME 6c 6f 00 0 false
	// 4 IFLA_MTU 00 00 01 00 65536 true
}

// An attribute that counts more bytes than there are.
func ExampleError() {
	broken := received(strings.Replace(loopback, "0700 0300", "7000 0300", 1))
	_, err := rtnlc.Parse(broken)
	fmt.Println(err)
	fmt.Println(errors.Is(err, rtnlc.ErrBadLength), errors.Is(err, rtnlc.ErrCut))
	var refused *rtnlc.Error
	if errors.As(err, &refused) {
		fmt.Println(refused.Code.String(), refused.Place)
	}
	// Output:
	// rtnlc: bad length at 32
	// true false
	// bad length 32
}

func ExampleScan() {
	visits, err := rtnlc.Scan(received(routes), nil)
	fmt.Println(visits, err)
	// Output: 84 <nil>
}

func ExampleCheck() {
	canonical, err := rtnlc.Check(received(loopback), nil)
	fmt.Println(canonical, err)
	// Output: true <nil>
}

func ExampleShow() {
	text, err := rtnlc.Show(1, received(ended), nil)
	fmt.Print(text)
	fmt.Println(err)
	// Output:
	// datagram 1 bytes 20
	// message 3 done flags 0x0002 MULTI seq 1 port 1
	//   done status 0 tail -
	// <nil>
}

func ExampleBuilder() {
	// ip route add 10.9.0.0/16 nexthop via 192.0.2.254 nexthop via 198.51.100.254 weight 10
	dst := netip.MustParsePrefix("10.9.0.0/16")
	head := rtnlc.RouteTo(dst)
	head.Table, head.Protocol = rtnlc.RT_TABLE_MAIN, rtnlc.RTPROT_BOOT
	head.Type = rtnlc.RTN_UNICAST
	flags := uint16(rtnlc.NLM_F_REQUEST | rtnlc.NLM_F_ACK | rtnlc.NLM_F_CREATE | rtnlc.NLM_F_EXCL)

	b := rtnlc.NewBuilder(make([]byte, 256), nil)
	b.Begin(rtnlc.Header{Type: rtnlc.RTM_NEWROUTE, Flags: flags, Seq: 1}, head)
	b.PutAddr(rtnlc.RTA_DST, dst.Addr())
	b.Open(rtnlc.RTA_MULTIPATH)
	for _, it := range []struct {
		gateway string
		weight  int
	}{{"192.0.2.254", 1}, {"198.51.100.254", 10}} {
		b.OpenNextHop(rtnlc.NextHopHead{Weight: it.weight})
		b.PutAddr(rtnlc.RTA_GATEWAY, netip.MustParseAddr(it.gateway))
		b.Close()
	}
	b.Close()
	b.End()
	datagram, err := b.Finish()
	fmt.Println(len(datagram), err)
	// Output: 72 <nil>
}

// Two requests in one datagram, each with its sequence number.
func ExampleChangeRequest() {
	// ip link set eth0 up
	datagram, err := rtnlc.LinkRequest{Name: "eth0", Up: rtnlc.PointerTo(true)}.AppendTo(
		nil, rtnlc.Set, 1, nil)
	if err == nil {
		// ip route replace 10.1.0.0/16 via 192.0.2.254 metric 0
		datagram, err = rtnlc.RouteRequest{
			Dst:      netip.MustParsePrefix("10.1.0.0/16"),
			Gateway:  netip.MustParseAddr("192.0.2.254"),
			Priority: rtnlc.PointerTo(uint32(0)),
			Table:    rtnlc.RT_TABLE_MAIN,
			Protocol: rtnlc.RTPROT_BOOT,
			Type:     rtnlc.RTN_UNICAST,
		}.AppendTo(datagram, rtnlc.Replace, 2, nil)
	}
	fmt.Println(len(datagram), err)
	// Output: 96 <nil>
}

func ExampleRuleRequest() {
	// ip rule add from 192.0.2.0/24 fwmark 0x10/0xff table 1000 priority 100
	mark, mask, priority := uint32(0x10), uint32(0xff), uint32(100)
	request := rtnlc.RuleRequest{From: netip.MustParsePrefix("192.0.2.0/24"), Mark: &mark,
		Mask: &mask, Priority: &priority, Table: 1000, Action: rtnlc.FR_ACT_TO_TBL}
	datagram, err := request.AppendTo(make([]byte, 0, 256), rtnlc.Add, 1, nil)
	fmt.Printf("% x %v\n", datagram[28:36], err)
	// Output: 08 00 02 00 c0 00 02 00 <nil>
}
