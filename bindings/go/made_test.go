package rtnlc_test

import (
	"encoding/binary"
	"encoding/hex"
	"fmt"
	"os"
	"path/filepath"
	"strings"
	"testing"

	"rtnl.invalid/rtnlc"
)

// What the tests share: datagrams that are written field by field, after the kernel's headers, and
// the recordings of the repository.

// joined is parts one after another: bytes, numbers of little order, and texts.
func joined(parts ...any) []byte {
	var made []byte
	for _, it := range parts {
		switch it := it.(type) {
		case string:
			made = append(made, it...)
		case []byte:
			made = append(made, it...)
		case uint8:
			made = append(made, it)
		case uint16:
			made = binary.LittleEndian.AppendUint16(made, it)
		case uint32:
			made = binary.LittleEndian.AppendUint32(made, it)
		default:
			panic(fmt.Sprintf("no part of a datagram: %T", it))
		}
	}
	return made
}

// aligned has zeros behind it, up to a multiple of 4.
func aligned(bytes []byte) []byte { return append(bytes, make([]byte, -len(bytes)&3)...) }

// attr is an attribute, whose number may have flag bits.
func attr(number uint16, parts ...any) []byte {
	payload := joined(parts...)
	return aligned(joined(uint16(4+len(payload)), number, payload))
}

// hop is a next hop.
func hop(flags, hops uint8, index uint32, parts ...any) []byte {
	attrs := joined(parts...)
	return joined(uint16(8+len(attrs)), flags, hops, index, attrs)
}

const (
	seq    = 7
	port   = 4242
	nested = 0x8000
	net    = 0x4000
)

// flagged is a message of the dump that the tests read.
func flagged(messageType, flags uint16, parts ...any) []byte {
	body := joined(parts...)
	head := joined(uint32(16+len(body)), messageType, flags, uint32(seq), uint32(port))
	return aligned(append(head, body...))
}

func message(messageType uint16, parts ...any) []byte {
	return flagged(messageType, rtnlc.NLM_F_MULTI, parts...)
}

// done is the end of the dump with a status.
func done(status int32) []byte { return message(rtnlc.NLMSG_DONE, uint32(status)) }

// link is a message of a link with an index.
func link(index uint32, attrs ...any) []byte {
	head := joined(uint8(0), uint8(0), uint16(1), index, uint32(0x11043), uint32(0))
	return message(rtnlc.RTM_NEWLINK, append([]any{head}, attrs...)...)
}

// only is the one message of a datagram.
func only(t testing.TB, datagram []byte) rtnlc.Message {
	t.Helper()
	messages, err := rtnlc.Parse(datagram)
	if err != nil || len(messages) != 1 {
		t.Fatalf("%d messages, %v", len(messages), err)
	}
	return messages[0]
}

// told is a value as text, or "none".
func told(value any, found bool) string {
	if !found {
		return "none"
	}
	return fmt.Sprint(value)
}

// equal compares texts of values.
func equal(t testing.TB, what string, found, wanted any) {
	t.Helper()
	if found, wanted := fmt.Sprint(found), fmt.Sprint(wanted); found != wanted {
		t.Errorf("%s: found %s, and wanted %s", what, found, wanted)
	}
}

// repository is the folder in which recordings lie; a test that needs it is skipped elsewhere.
func repository(t testing.TB) string {
	t.Helper()
	named := os.Getenv("RTNLC_REPOSITORY")
	if named == "" {
		named = filepath.Join("..", "..")
		if _, err := os.Stat(filepath.Join(named, "examples", "links.hex")); err != nil {
			t.Skip("RTNLC_REPOSITORY does not name the repository of rtnl")
		}
	}
	return named
}

// program is that of rtnl, beside which answers are compared.
func program(t testing.TB) string {
	t.Helper()
	named := os.Getenv("RTNL")
	if named == "" {
		t.Skip("RTNL does not name the program rtnl")
	}
	return named
}

// recordings are the paths of those of the examples and of the tests.
func recordings(t testing.TB) []string {
	t.Helper()
	root := repository(t)
	var found []string
	for _, pattern := range []string{"examples/*.hex", "tests/data/recordings/*.hex"} {
		paths, err := filepath.Glob(filepath.Join(root, pattern))
		if err != nil || len(paths) == 0 {
			t.Fatalf("no %s in %s", pattern, root)
		}
		found = append(found, paths...)
	}
	return found
}

// datagrams are those of a recording.
func datagrams(t testing.TB, path string) [][]byte {
	t.Helper()
	text, err := os.ReadFile(path)
	if err != nil {
		t.Fatal(err)
	}
	var found [][]byte
	for _, line := range strings.Split(string(text), "\n") {
		if line = strings.Join(strings.Fields(line), ""); line == "" || line[0] == '#' {
			continue
		}
		datagram, err := hex.DecodeString(line)
		if err != nil {
			t.Fatal(path, err)
		}
		found = append(found, datagram)
	}
	return found
}
