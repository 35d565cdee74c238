// Package source has the datagrams of a file, in place of a socket. Each stands behind its size,
// four bytes, lowest first, and is padded to four bytes. Requests go nowhere. And it has where the
// lines go: with QUIET in the environment nowhere, and nothing is made a text.
package source

import (
	"bufio"
	"encoding/binary"
	"errors"
	"fmt"
	"io"
	"os"
	"path/filepath"
)

// Port is the port id that answers carry.
const Port = 2

var (
	out        = bufio.NewWriter(os.Stdout)
	_, isQuiet = os.LookupEnv("QUIET")
)

// Say prints a line of these fields.
func Say(fields ...any) {
	if !isQuiet {
		fmt.Fprintln(out, fields...)
	}
}

// Flush hands on what was printed.
func Flush() error { return out.Flush() }

// Or is a value, or a dash where there is none.
func Or(value any, found bool) any {
	if !found {
		return "-"
	}
	return value
}

// A Source is such a file.
type Source struct {
	file   *bufio.Reader
	buffer [65536]byte
}

// Open opens the file that is the first argument of the program.
func Open() (*Source, error) {
	if len(os.Args) != 2 {
		return nil, errors.New("no file")
	}
	file, err := os.Open(os.Args[1])
	return &Source{file: bufio.NewReader(file)}, err
}

// Send sends nothing.
func (s *Source) Send(request []byte) error { return nil }

// Receive is the next datagram, good until the next one, or io.EOF.
func (s *Source) Receive() ([]byte, error) {
	var size uint32
	if _, err := io.ReadFull(s.file, s.buffer[:4]); err != nil {
		return nil, err
	}
	size = binary.LittleEndian.Uint32(s.buffer[:])
	_, err := io.ReadFull(s.file, s.buffer[:(size+3)&^3])
	return s.buffer[:size], err
}

// Exit ends the program, with a line that says what failed, where something did.
func Exit(err error) {
	if err == nil {
		err = Flush()
	}
	if err != nil {
		fmt.Fprintf(os.Stderr, "%s: %v\n", filepath.Base(os.Args[0]), err)
		os.Exit(1)
	}
}
