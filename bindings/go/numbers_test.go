package rtnlc_test

import (
	"fmt"
	"go/ast"
	"go/parser"
	"go/token"
	"os"
	"os/exec"
	"regexp"
	"strconv"
	"strings"
	"testing"
)

const headers = `#include <stddef.h>
#include <sys/socket.h>
#include <linux/netlink.h>
#include <linux/rtnetlink.h>
#include <linux/if.h>
#include <linux/if_link.h>
#include <linux/if_addr.h>
#include <linux/neighbour.h>
#include <linux/fib_rules.h>
`

// refused are those of these expressions which the compiler of C does not find to be so.
func refused(t testing.TB, says []string) map[int]bool {
	t.Helper()
	program := headers
	for _, it := range says {
		program += fmt.Sprintf("_Static_assert(%s, \"\");\n", it)
	}
	compiler := os.Getenv("CC")
	if compiler == "" {
		compiler = "cc"
	}
	command := exec.Command(compiler, "-x", "c", "-fsyntax-only", "-fmax-errors=0", "-")
	command.Stdin = strings.NewReader(program)
	printed, err := command.CombinedOutput()
	found := map[int]bool{}
	errors := regexp.MustCompile(`<stdin>:(\d+):\d+: error: `)
	for _, line := range errors.FindAllSubmatch(printed, -1) {
		number, _ := strconv.Atoi(string(line[1]))
		found[number-strings.Count(headers, "\n")-1] = true
	}
	if err != nil && len(found) == 0 || found[-1] {
		t.Fatal(err, string(printed))
	}
	return found
}

// constants are those of a file, with their values.
func constants(t testing.TB, path string) map[string]string {
	t.Helper()
	file, err := parser.ParseFile(token.NewFileSet(), path, nil, 0)
	if err != nil {
		t.Fatal(err)
	}
	found := map[string]string{}
	ast.Inspect(file, func(node ast.Node) bool {
		if spec, is := node.(*ast.ValueSpec); is {
			found[spec.Names[0].Name] = spec.Values[0].(*ast.BasicLit).Value
		}
		return true
	})
	return found
}

// Each constant whose name is of the kernel's headers has the number that it has there.
func TestNumbers(t *testing.T) {
	var says []string
	for name, value := range constants(t, "numbers.go") {
		says = append(says, name+" == "+value)
	}
	if len(says) < 120 {
		t.Errorf("%d numbers were found", len(says))
	}
	for at := range refused(t, says) {
		t.Errorf("%s: not so in the kernel's headers", says[at])
	}
}

// An attribute that the headers here don't have yet is above their last one.
func TestNumbersOfAttributes(t *testing.T) {
	var says, isNewer []string
	for name, value := range constants(t, "attributes.go") {
		prefix := name[:strings.IndexByte(name, '_')+1]
		if strings.HasPrefix(name, "IFLA_INFO_") {
			prefix = "IFLA_INFO_"
		}
		says = append(says, name+" == "+value)
		isNewer = append(isNewer, "__"+prefix+"MAX <= "+value)
	}
	if len(says) < 169 {
		t.Errorf("%d attributes were found", len(says))
	}
	isOlder := refused(t, isNewer)
	for at := range refused(t, says) {
		if isOlder[at] {
			t.Errorf("%s: not so in the kernel's headers", says[at])
		} else {
			t.Logf("newer than the headers here: %s", says[at])
		}
	}
}

// The offsets at which views read the heads of bodies.
func TestHeads(t *testing.T) {
	says := []string{}
	for _, row := range []struct {
		name   string
		size   int
		fields string // each with its offset and its size
	}{
		{"struct nlmsghdr", 16,
			"nlmsg_len 0 4 nlmsg_type 4 2 nlmsg_flags 6 2 nlmsg_seq 8 4 nlmsg_pid 12 4"},
		{"struct rtattr", 4, ""},
		{"struct rtnexthop", 8, "rtnh_flags 2 1 rtnh_hops 3 1 rtnh_ifindex 4 4"},
		{"struct rtvia", 2, "rtvia_family 0 2"},
		{"struct ifinfomsg", 16, "ifi_family 0 1 ifi_type 2 2 ifi_index 4 4 ifi_flags 8 4"},
		{"struct ifaddrmsg", 8,
			"ifa_family 0 1 ifa_prefixlen 1 1 ifa_flags 2 1 ifa_scope 3 1 ifa_index 4 4"},
		{"struct rtmsg", 12, "rtm_family 0 1 rtm_dst_len 1 1 rtm_src_len 2 1 rtm_tos 3 1" +
			" rtm_table 4 1 rtm_protocol 5 1 rtm_scope 6 1 rtm_type 7 1 rtm_flags 8 4"},
		{"struct ndmsg", 12,
			"ndm_family 0 1 ndm_ifindex 4 4 ndm_state 8 2 ndm_flags 10 1 ndm_type 11 1"},
		{"struct fib_rule_hdr", 12,
			"family 0 1 dst_len 1 1 src_len 2 1 tos 3 1 table 4 1 action 7 1 flags 8 4"},
	} {
		says = append(says, fmt.Sprintf("sizeof(%s) == %d", row.name, row.size))
		for words := strings.Fields(row.fields); len(words) > 0; words = words[3:] {
			says = append(says,
				fmt.Sprintf("offsetof(%s, %s) == %s", row.name, words[0], words[1]),
				fmt.Sprintf("sizeof(((%s *)0)->%s) == %s", row.name, words[0], words[2]))
		}
	}
	for at := range refused(t, says) {
		t.Errorf("%s: not so in the kernel's headers", says[at])
	}
}
