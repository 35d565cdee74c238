package rtnlc_test

import (
	"bytes"
	"encoding/binary"
	"encoding/hex"
	"encoding/json"
	"errors"
	"fmt"
	"net/netip"
	"os/exec"
	"strconv"
	"testing"

	"rtnl.invalid/rtnlc"
)

// What the program rtnl prints in JSON of the same datagrams, and what must be said of it here.

type jsonAttr struct {
	Number uint16
	Flags  []string
	Form   string
	Value  any
	Items  json.RawMessage
}

type jsonHop struct {
	Flags, Hops uint8
	Index       int
	Attrs       []jsonAttr
}

// A jsonObject is what a line has of a link, an address, a route, a neighbour or a rule.
type jsonObject struct {
	Family, Scope, Table, Protocol, Tos, Action uint8
	Type                                        uint16
	Index                                       int
	Flags                                       uint32
	State                                       uint16
	Prefix                                      uint8
	DstLen                                      uint8 `json:"dst_len"`
	SrcLen                                      uint8 `json:"src_len"`
	Attrs                                       []jsonAttr
}

// A jsonLine is a line of `table` or `check`.
type jsonLine struct {
	Entry                          int
	Link, Addr, Route, Neigh, Rule *jsonObject

	Dump, End                      *string
	Code                           int32
	Entries, Missed, Ignored       uint64
	Damaged, Interrupted, Complete bool
	Received, Visits               uint64
	Datagram                       int
	Canonical                      bool
	Refused                        *string
	At                             uint32
}

// lines are what the program prints with these arguments.
func lines(t testing.TB, arguments ...string) []jsonLine {
	t.Helper()
	var errs bytes.Buffer
	command := exec.Command(program(t), arguments...)
	command.Stderr = &errs
	printed, err := command.Output()
	var status *exec.ExitError
	if err != nil && (!errors.As(err, &status) || status.ExitCode() != 1) {
		t.Fatal(arguments, err, errs.String())
	}
	var found []jsonLine
	for decoder := json.NewDecoder(bytes.NewReader(printed)); decoder.More(); {
		var line jsonLine
		decoder.UseNumber()
		if err := decoder.Decode(&line); err != nil {
			t.Fatal(arguments, err)
		}
		found = append(found, line)
	}
	return found
}

// In the line, a first attribute of a number as a text, or "none".

func first(attrs []jsonAttr, number uint16) jsonAttr {
	for _, it := range attrs {
		if it.Number == number {
			return it
		}
	}
	return jsonAttr{Form: "none"}
}

// valueOf is the value of the first attribute of a number in one of these forms.
func valueOf(attrs []jsonAttr, number uint16, forms ...string) string {
	it := first(attrs, number)
	for _, form := range forms {
		if it.Form == form {
			return fmt.Sprint(it.Value)
		}
	}
	return "none"
}

func numberOf(attrs []jsonAttr, number uint16) string {
	return valueOf(attrs, number, "u8", "u16", "u32")
}

func addressOf(attrs []jsonAttr, number uint16) string {
	addr, err := netip.ParseAddr(valueOf(attrs, number, "ipv4", "ipv6"))
	return told(addr, err == nil)
}

func prefixOf(attrs []jsonAttr, number uint16, bits uint8) string {
	if addr := addressOf(attrs, number); addr != "none" {
		return addr + "/" + strconv.Itoa(int(bits))
	}
	return "none"
}

func hardwareOf(attrs []jsonAttr, number uint16) string {
	digits := valueOf(attrs, number, "hex")
	if digits == "none" || digits == "" {
		return "none"
	}
	for at := len(digits) - 2; at > 0; at -= 2 {
		digits = digits[:at] + ":" + digits[at:]
	}
	return digits
}

func gatewayOf(attrs []jsonAttr) string {
	if it := first(attrs, rtnlc.RTA_GATEWAY); it.Form != "none" {
		return addressOf(attrs, rtnlc.RTA_GATEWAY)
	}
	via, err := hex.DecodeString(valueOf(attrs, rtnlc.RTA_VIA, "hex"))
	if err != nil || len(via) != 6 && len(via) != 18 {
		return "none"
	}
	addr, found := netip.AddrFromSlice(via[2:])
	is4 := binary.LittleEndian.Uint16(via) == rtnlc.AF_INET
	return told(addr, found && is4 == addr.Is4())
}

// or is a text, or another where there is none.
func or(text string, other any) string {
	if text != "none" {
		return text
	}
	return fmt.Sprint(other)
}

func items(t testing.TB, it jsonAttr, into any) {
	t.Helper()
	if it.Items != nil {
		decoder := json.NewDecoder(bytes.NewReader(it.Items))
		decoder.UseNumber()
		if err := decoder.Decode(into); err != nil {
			t.Fatal(err)
		}
	}
}

// wanted is what the views are to say of an entry, in the order of views_test.go.
func wanted(t testing.TB, it jsonLine) (view string, values []any) {
	t.Helper()
	switch {
	case it.Link != nil:
		return "link", wantedLink(t, *it.Link)
	case it.Addr != nil:
		return "address", wantedAddress(*it.Addr)
	case it.Route != nil:
		return "route", wantedRoute(t, *it.Route)
	case it.Neigh != nil:
		return "neighbour", wantedNeighbour(*it.Neigh)
	}
	return "rule", wantedRule(*it.Rule)
}

func wantedLink(t testing.TB, it jsonObject) []any {
	t.Helper()
	var info []jsonAttr
	items(t, first(it.Attrs, rtnlc.IFLA_LINKINFO), &info)
	state := numberOf(it.Attrs, rtnlc.IFLA_OPERSTATE)
	if number, err := strconv.Atoi(state); err == nil {
		words := []string{"UNKNOWN", "NOTPRESENT", "DOWN", "LOWERLAYERDOWN", "TESTING", "DORMANT", "UP"}
		state = words[number]
	}
	return []any{it.Family, it.Type, it.Index, it.Flags,
		valueOf(it.Attrs, rtnlc.IFLA_IFNAME, "text"), numberOf(it.Attrs, rtnlc.IFLA_MTU),
		hardwareOf(it.Attrs, rtnlc.IFLA_ADDRESS), numberOf(it.Attrs, rtnlc.IFLA_MASTER),
		valueOf(info, rtnlc.IFLA_INFO_KIND, "text"), state}
}

func wantedAddress(it jsonObject) []any {
	return []any{it.Family, or(numberOf(it.Attrs, rtnlc.IFA_FLAGS), it.Flags), it.Scope, it.Index,
		prefixOf(it.Attrs, rtnlc.IFA_ADDRESS, it.Prefix), addressOf(it.Attrs, rtnlc.IFA_LOCAL),
		valueOf(it.Attrs, rtnlc.IFA_LABEL, "text")}
}

func wantedRoute(t testing.TB, it jsonObject) []any {
	t.Helper()
	values := []any{it.Family, it.Tos, or(numberOf(it.Attrs, rtnlc.RTA_TABLE), it.Table),
		it.Protocol, it.Scope, it.Type, it.Flags, it.DstLen == 0,
		prefixOf(it.Attrs, rtnlc.RTA_DST, it.DstLen), prefixOf(it.Attrs, rtnlc.RTA_SRC, it.SrcLen),
		gatewayOf(it.Attrs), numberOf(it.Attrs, rtnlc.RTA_OIF),
		addressOf(it.Attrs, rtnlc.RTA_PREFSRC), numberOf(it.Attrs, rtnlc.RTA_PRIORITY)}
	var hops []jsonHop
	items(t, first(it.Attrs, rtnlc.RTA_MULTIPATH), &hops)
	for _, hop := range hops {
		values = append(values, hop.Flags, int(hop.Hops)+1, hop.Index, gatewayOf(hop.Attrs))
	}
	return values
}

func wantedNeighbour(it jsonObject) []any {
	return []any{it.Family, it.Index, it.State, it.Flags, it.Type,
		addressOf(it.Attrs, rtnlc.NDA_DST), hardwareOf(it.Attrs, rtnlc.NDA_LLADDR)}
}

func wantedRule(it jsonObject) []any {
	return []any{it.Family, it.Tos, or(numberOf(it.Attrs, rtnlc.FRA_TABLE), it.Table), it.Action,
		it.Flags, prefixOf(it.Attrs, rtnlc.FRA_SRC, it.SrcLen),
		prefixOf(it.Attrs, rtnlc.FRA_DST, it.DstLen), numberOf(it.Attrs, rtnlc.FRA_PRIORITY),
		numberOf(it.Attrs, rtnlc.FRA_FWMARK), numberOf(it.Attrs, rtnlc.FRA_FWMASK),
		valueOf(it.Attrs, rtnlc.FRA_IIFNAME, "text"), valueOf(it.Attrs, rtnlc.FRA_OIFNAME, "text")}
}
