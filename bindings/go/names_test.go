package rtnlc_test

import (
	"fmt"
	"strconv"
	"strings"
	"testing"

	"rtnl.invalid/rtnlc"
)

// Each attribute has the name of its constant, where it stands.
func TestNamesOfAttributes(t *testing.T) {
	for name, value := range constants(t, "attributes.go") {
		wide, err := strconv.ParseUint(value, 10, 16)
		if err != nil {
			t.Fatal(name, err)
		}
		it := attr(uint16(wide))
		var found []string
		switch prefix := name[:strings.IndexByte(name, '_')+1]; {
		case strings.HasPrefix(name, "IFLA_INFO_"):
			found = allNames(t, only(t, message(16, linkHead, attr(40), attr(18, attr(50), it))))
		case prefix == "IFLA_":
			found = allNames(t, only(t, message(16, linkHead, attr(26|nested, attr(3)), it)))
		case prefix == "IFA_":
			found = allNames(t, only(t, message(20, addressHead, it)))
		case prefix == "RTA_" && wide == rtnlc.RTA_MULTIPATH:
			found = allNames(t, only(t, message(24, routeHead, it)))
		case prefix == "RTA_":
			found = allNames(t, only(t, message(24, routeHead, attr(9, hop(0, 0, 1), hop(0, 0, 2, it)))))
		case prefix == "RTAX_":
			found = allNames(t, only(t, message(24, routeHead, attr(9, hop(0, 0, 1, attr(8, it))))))
		case prefix == "NDA_":
			found = allNames(t, only(t, message(28, neighbourHead, it)))
		case prefix == "FRA_":
			found = allNames(t, only(t, message(32, ruleHead, it)))
		}
		equal(t, name, found[len(found)-1], name)
	}
}

// allNames are those of all attributes in a message, in the order of their offsets.
func allNames(t testing.TB, m rtnlc.Message) (found []string) {
	var walk func(attrs rtnlc.Attrs)
	walk = func(attrs rtnlc.Attrs) {
		for attrs.Next() {
			found = append(found, told(attrs.Attr().Name()))
			walk(attrs.Attr().Attrs())
			for hops := attrs.Attr().NextHops(); hops.Next(); {
				walk(hops.NextHop().Attrs())
			}
		}
	}
	walk(m.Attrs())
	return found
}

func TestNamesWhereTheyStand(t *testing.T) {
	m := only(t, joined(message(16, linkHead, attr(18, attr(1, "x"), attr(2|nested, attr(1))),
		attr(26|nested, attr(3)), attr(1000), attr(3))))
	equal(t, "names", allNames(t, m), "[IFLA_LINKINFO IFLA_INFO_KIND IFLA_INFO_DATA none"+
		" IFLA_AF_SPEC none none IFLA_IFNAME]")
	messages, err := rtnlc.Parse(joined(link(1, attr(4)),
		message(24, routeHead, attr(4))))
	if err != nil {
		t.Fatal(err)
	}
	equal(t, "in the second message", allNames(t, messages[1]), "[RTA_OIF]")
	equal(t, "in a clone", allNames(t, messages[1].Clone()), "[RTA_OIF]")
	equal(t, "of no attribute", told(rtnlc.Attr{}.Name()), "none")
}

// Each message type that has a constant has its name, and no other one has.
func TestNamesOfTypes(t *testing.T) {
	names := map[uint16]string{}
	for name, value := range constants(t, "numbers.go") {
		isType := strings.HasPrefix(name, "RTM_") || strings.HasPrefix(name, "NLMSG_")
		if number, err := strconv.ParseUint(value, 0, 16); err == nil && isType {
			names[uint16(number)] = name
		}
	}
	for number := 0; number < 65536; number++ {
		wanted, found := names[uint16(number)]
		equal(t, fmt.Sprint("type ", number), told(rtnlc.TypeName(uint16(number))),
			told(wanted, found))
	}
}
