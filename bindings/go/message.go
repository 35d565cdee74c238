package rtnlc

import (
	"encoding/binary"
	"syscall"
)

// A part is a head of a Tape and what stands in it: the event at `at`, and those before `end`. The
// zero part is of no tape, and has nothing.
type part struct {
	tape    *Tape
	at, end uint32
}

func (p part) event() Event {
	if p.tape == nil {
		return Event{}
	}
	return p.tape.events[p.at]
}

// behind are the bytes behind a head of this size.
func (p part) behind(size uint32) []byte {
	if p.tape == nil {
		return nil
	}
	head := &p.tape.events[p.at]
	begin := head.Place + size
	return p.tape.datagram[begin : begin+head.Len : begin+head.Len]
}

// head are the bytes of the head, and those behind it.
func (p part) head(size uint32) []byte {
	if p.tape == nil {
		return make([]byte, size)
	}
	head := &p.tape.events[p.at]
	return p.tape.datagram[head.Place : head.Place+size+head.Len]
}

// order is that of the numbers.
func (p part) order() order { return order(p.tape != nil && p.tape.big) }

// attrs are the attributes of this level in it.
func (p part) attrs(level uint8) Attrs {
	if p.tape == nil {
		return Attrs{}
	}
	return Attrs{tape: p.tape, next: p.at + 1, end: p.end, level: level}
}

// find is the first attribute of a number on this level in it.
func (p part) find(level uint8, number uint16) (Attr, bool) {
	if p.tape == nil {
		return Attr{}, false
	}
	events := p.tape.events
	for at := p.at + 1; at < p.end; at++ {
		head := &events[at]
		if head.Number == number && head.Level == level && head.Sort != SortNextHop {
			return Attr{part{p.tape, at, inside(events[:p.end], at)}}, true
		}
	}
	return Attr{}, false
}

// inside is where what stands in the head at an index ends.
func inside(events []Event, at uint32) uint32 {
	level := events[at].Level
	for at++; at < uint32(len(events)) && events[at].Level > level; at++ {
	}
	return at
}

// An order says that a number has its highest byte first.
type order bool

func (o order) uint16(bytes []byte) uint16 {
	if o {
		return binary.BigEndian.Uint16(bytes)
	}
	return binary.LittleEndian.Uint16(bytes)
}

func (o order) uint32(bytes []byte) uint32 {
	if o {
		return binary.BigEndian.Uint32(bytes)
	}
	return binary.LittleEndian.Uint32(bytes)
}

func (o order) uint64(bytes []byte) uint64 {
	if o {
		return binary.BigEndian.Uint64(bytes)
	}
	return binary.LittleEndian.Uint64(bytes)
}

// A Message is a message of a datagram.
type Message struct{ part }

// A Header is what stands in front of a message, struct nlmsghdr.
type Header struct {
	Len   uint32 // of the message, with the header
	Type  uint16 // as RTM_NEWLINK
	Flags uint16 // as NLM_F_MULTI
	Seq   uint32
	Port  uint32
}

const headerSize = 16

// Header is the header of the message.
func (m Message) Header() Header {
	head, order := m.head(headerSize), m.order()
	return Header{
		Len:   order.uint32(head),
		Type:  order.uint16(head[4:]),
		Flags: order.uint16(head[6:]),
		Seq:   order.uint32(head[8:]),
		Port:  order.uint32(head[12:]),
	}
}

// Body is what stands behind the header, without padding: a part of the datagram.
func (m Message) Body() []byte { return m.behind(headerSize) }

// Errno is the number in an NLMSG_ERROR: 0 where it acknowledges a request, else why the kernel
// has refused one.
func (m Message) Errno() (syscall.Errno, bool) {
	if m.event().Number != NLMSG_ERROR || len(m.Body()) < 4 {
		return 0, false
	}
	code := int64(int32(m.order().uint32(m.Body())))
	if code < 0 {
		code = -code
	}
	return syscall.Errno(code), true
}

// Attrs are the attributes of the message, for a loop over Next. Messages of other types than
// those of links, addresses, routes, neighbours and rules have none.
func (m Message) Attrs() Attrs { return m.attrs(0) }

// Find is the first attribute of a number, as IFLA_IFNAME.
func (m Message) Find(number uint16) (Attr, bool) { return m.find(0, number) }

// first is the same, or the zero Attr, which holds nothing.
func (m Message) first(number uint16) Attr {
	found, _ := m.find(0, number)
	return found
}

// Clone is a copy with bytes of its own, which is good as long as the caller keeps it.
func (m Message) Clone() Message {
	if m.tape == nil {
		return m
	}
	made := &Tape{big: m.tape.big}
	return made.keep(m, m.head(headerSize))
}

// Fixed heads, which a body begins with where the message was accepted. Of the zero Message they
// are zeros.

func (m Message) byteAt(at int) uint8 {
	if body := m.Body(); at < len(body) {
		return body[at]
	}
	return 0
}

func (m Message) uint16At(at int) uint16 {
	if body := m.Body(); at+2 <= len(body) {
		return m.order().uint16(body[at:])
	}
	return 0
}

func (m Message) uint32At(at int) uint32 {
	if body := m.Body(); at+4 <= len(body) {
		return m.order().uint32(body[at:])
	}
	return 0
}
