// Package socket has what mdlayher/netlink receives from, in place of its own socket.
package socket

import (
	"syscall"

	"github.com/mdlayher/netlink"

	"measure/source"
)

// A Socket receives the messages of a file. They carry the sequence number of the last request.
type Socket struct {
	*source.Source
	seq uint32
}

// Dial is a connection over such a socket.
func Dial() (*netlink.Conn, error) {
	file, err := source.Open()
	return netlink.NewConn(&Socket{Source: file}, source.Port), err
}

// Close does nothing.
func (s *Socket) Close() error { return nil }

// Send sends nothing.
func (s *Socket) Send(request netlink.Message) error {
	s.seq = request.Header.Sequence
	return nil
}

// SendMessages sends nothing.
func (s *Socket) SendMessages([]netlink.Message) error { return nil }

// Receive is the messages of the next datagram, as those of a socket: in bytes of their own.
func (s *Socket) Receive() ([]netlink.Message, error) {
	datagram, err := s.Source.Receive()
	if err != nil {
		return nil, err
	}
	raw, err := syscall.ParseNetlinkMessage(append([]byte(nil), datagram...))
	if err != nil {
		return nil, err
	}
	messages := make([]netlink.Message, 0, len(raw))
	for _, it := range raw {
		messages = append(messages, netlink.Message{
			Header: netlink.Header{
				Length:   it.Header.Len,
				Type:     netlink.HeaderType(it.Header.Type),
				Flags:    netlink.HeaderFlags(it.Header.Flags),
				Sequence: s.seq,
				PID:      it.Header.Pid,
			},
			Data: it.Data,
		})
	}
	return messages, nil
}
