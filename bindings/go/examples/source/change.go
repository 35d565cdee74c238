package source

import (
	"errors"
	"fmt"
	"io"
	"os"
	"syscall"

	"rtnl.invalid/rtnlc"
)

// Arg is an argument of the program, or empty where there is none.
func Arg(at int) string {
	if at < len(os.Args) {
		return os.Args[at]
	}
	return ""
}

// Misused ends a program that was called wrongly.
func Misused(usage string) {
	fmt.Fprintln(os.Stderr, "usage:", usage)
	os.Exit(2)
}

// Change sends a request, and waits until the kernel says that it was done.
func (s *Source) Change(operation rtnlc.Operation, change rtnlc.ChangeRequest) error {
	s.seq++
	request, err := change.AppendTo(nil, operation, s.seq, nil)
	if err == nil {
		_, err = syscall.Write(s.fd, request)
	}
	for tape := new(rtnlc.Tape); err == nil; {
		var datagram []byte
		var messages []rtnlc.Message
		if datagram, err = s.Receive(); err == io.EOF {
			return errors.New("the answer ended early")
		} else if err == nil {
			messages, err = tape.Parse(datagram)
		}
		for _, message := range messages {
			code, found := message.Errno()
			if found && message.Header().Seq == s.seq && code == 0 {
				return nil
			} else if found && message.Header().Seq == s.seq {
				return &rtnlc.KernelError{Errno: code}
			}
		}
	}
	return err
}
