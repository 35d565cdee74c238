// Package source is what the programs beside it share: a socket, a dump over it, and how they end.
package source

import (
	"errors"
	"fmt"
	"io"
	"os"
	"strings"
	"syscall"

	"rtnl.invalid/rtnlc"
)

// A Source is a netlink socket, or a unix socket at whose other end a program plays the kernel.
type Source struct {
	fd        int
	seq, port uint32
	buffer    [65536]byte
}

// Open joins groups, bits of 1<<(RTNLGRP_*-1), or connects to the socket of a path, if any.
func Open(groups uint32, path string) (*Source, error) {
	if path != "" {
		fd, err := syscall.Socket(syscall.AF_UNIX, syscall.SOCK_SEQPACKET, 0)
		if err == nil {
			err = syscall.Connect(fd, &syscall.SockaddrUnix{Name: path})
		}
		return &Source{fd: fd}, err
	}
	fd, err := syscall.Socket(syscall.AF_NETLINK, syscall.SOCK_RAW, syscall.NETLINK_ROUTE)
	if err == nil {
		err = syscall.Bind(fd, &syscall.SockaddrNetlink{Family: syscall.AF_NETLINK, Groups: groups})
	}
	if err != nil {
		return nil, err
	}
	own, err := syscall.Getsockname(fd)
	if err != nil {
		return nil, err
	}
	return &Source{fd: fd, port: own.(*syscall.SockaddrNetlink).Pid}, nil
}

// Receive is the next datagram that the kernel sent, good until the next one, or io.EOF.
func (s *Source) Receive() ([]byte, error) {
	for {
		n, _, flags, from, err := syscall.Recvmsg(s.fd, s.buffer[:], nil, 0)
		sender, isNetlink := from.(*syscall.SockaddrNetlink)
		switch {
		case err == syscall.EINTR || isNetlink && sender.Pid != 0:
		case err != nil:
			return nil, err
		case flags&syscall.MSG_TRUNC != 0:
			return nil, syscall.EMSGSIZE
		case n == 0 && !isNetlink:
			return nil, io.EOF
		default:
			return s.buffer[:n], nil
		}
	}
}

// Dump keeps the entries of a dump in a list, again where the kernel's table changed meanwhile.
func (s *Source) Dump(kept *rtnlc.List, messageType uint16, family uint8) error {
	stream, err := rtnlc.NewStream(nil)
	for again, bytes := 0, []byte(nil); err == nil && again <= 10; again++ {
		kept.Reset()
		s.seq++
		if bytes, err = stream.Begin(messageType, family, s.seq, s.port); err == nil {
			_, err = syscall.Write(s.fd, bytes)
		}
		for fed := (rtnlc.Fed{}); err == nil && !fed.Ended; {
			if bytes, err = s.Receive(); err == io.EOF {
				return errors.New("the answer ended early")
			} else if err == nil {
				fed, err = stream.Feed(bytes)
				kept.Append(fed.Messages...)
			}
		}
		if ended := stream.Status().Err(); err == nil && ended != rtnlc.ErrInterrupted {
			return ended
		}
	}
	if err == nil {
		err = errors.New("interrupted")
	}
	return err
}

// Exit ends the program: well where the socket has ended, else with a line that says what failed.
func Exit(program string, err error) {
	broken, number := new(rtnlc.Error), syscall.Errno(0)
	text, status := fmt.Sprint(err), 2
	if errors.As(err, &number) { // in the words of strerror(3)
		text = strings.ToUpper(number.Error()[:1]) + number.Error()[1:]
	}
	switch {
	case err == nil || err == io.EOF:
		os.Exit(0)
	case errors.As(err, &broken) && broken.HasPlace():
		text, status = fmt.Sprintf("broken datagram: %s at %d", broken.Code.String(), broken.Place), 1
	case errors.As(err, new(*rtnlc.KernelError)):
		text, status = "refused: "+text, 3
	case err == syscall.EMSGSIZE:
		text, status = "cut datagram", 4
	case err == syscall.ENOBUFS || err == rtnlc.ErrOverrun:
		text, status = "lost datagrams", 5
	}
	fmt.Fprintf(os.Stderr, "%s: %s\n", program, text)
	os.Exit(status)
}
