package rtnlc

// #include <rtnlc.h>
import "C"

import "unsafe"

// A Sort is what a head is.
type Sort uint8

// What heads are.
const (
	SortMessage Sort = C.RTNLC_MESSAGE  // struct nlmsghdr
	SortBytes   Sort = C.RTNLC_BYTES    // an attribute that holds bytes
	SortList    Sort = C.RTNLC_LIST     // an attribute that holds attributes
	SortHops    Sort = C.RTNLC_HOPS     // RTA_MULTIPATH of a route: an attribute that holds next hops
	SortNextHop Sort = C.RTNLC_NEXT_HOP // struct rtnexthop
)

// An Event is what a Tape has of one head.
type Event struct {
	Place  uint32 // the offset of the head in the datagram
	Len    uint32 // bytes behind the head, without padding
	Number uint16 // a message's type; an attribute's without its two flag bits; 0 of a next hop
	Level  uint8  // 0 for messages and for the attributes of a body; one more in each container
	Sort   Sort
	Nested bool // NLA_F_NESTED
	Net    bool // NLA_F_NET_BYTEORDER
	_      [2]byte
}

// The library writes events as they lie: the compiler compares the size of the struct and the
// offset of each field.
var (
	event C.struct_rtnlc_event

	_ [unsafe.Sizeof(event)]byte          = [unsafe.Sizeof(Event{})]byte{}
	_ [unsafe.Offsetof(event.place)]byte  = [unsafe.Offsetof(Event{}.Place)]byte{}
	_ [unsafe.Offsetof(event.len)]byte    = [unsafe.Offsetof(Event{}.Len)]byte{}
	_ [unsafe.Offsetof(event.number)]byte = [unsafe.Offsetof(Event{}.Number)]byte{}
	_ [unsafe.Offsetof(event.level)]byte  = [unsafe.Offsetof(Event{}.Level)]byte{}
	_ [unsafe.Offsetof(event.sort)]byte   = [unsafe.Offsetof(Event{}.Sort)]byte{}
	_ [unsafe.Offsetof(event.nested)]byte = [unsafe.Offsetof(Event{}.Nested)]byte{}
	_ [unsafe.Offsetof(event.net)]byte    = [unsafe.Offsetof(Event{}.Net)]byte{}
)

// A Tape reads datagrams one after another. It keeps its memory for the next one, so that Parse
// takes none once it has seen the longest. The zero Tape is ready, and has the standard limits. It
// is not to be copied: Parse of a copy panics.
type Tape struct {
	Options *Options // the limits, or nil

	own      guard
	datagram []byte
	events   []Event // of the heads of the datagram
	visits   uint64
	messages []Message
	big      bool
}

// Parse checks every head of a datagram, in one call of the library, and answers its messages.
// They lie over the datagram, and are good until the next Parse. The error is an *Error: ErrCut to
// ErrTooLarge, or ErrBadLimit; then there are no messages.
func (t *Tape) Parse(datagram []byte) ([]Message, error) {
	t.own.stay("Tape")
	room := t.room(datagram)
	taped := C.rtnlc_tape(bytesAt(datagram), C.size_t(len(datagram)), t.Options.c(),
		eventsAt(room), C.size_t(len(room)))
	t.visits = uint64(taped.visits)
	t.set(datagram, room[:taped.count], t.Options.isBigEndian())
	if taped.code != ok {
		return nil, refusal(taped.code, taped.place)
	}
	return t.cut(), nil
}

// Parse is Parse of a new Tape: the messages of a datagram, by the standard limits.
func Parse(datagram []byte) ([]Message, error) { return new(Tape).Parse(datagram) }

// Events are the heads of the last datagram in the order of their offsets: each message, and
// behind it the heads in it. Of a refused datagram they are those before its fault, and that of a
// container which is too long or too deep itself.
func (t *Tape) Events() []Event { return t.events }

// Visits is how many bytes of attributes the last Parse visited.
func (t *Tape) Visits() uint64 { return t.visits }

// room is enough for the events of a datagram: it has at most a quarter as many heads as bytes,
// and the library looks at none above the greatest limit.
func (t *Tape) room(datagram []byte) []Event {
	const most = 1 << 20 / 4
	need := len(datagram) / 4
	if need > most {
		need = most
	}
	if cap(t.events) < need {
		t.events = make([]Event, need)
	}
	return t.events[:need]
}

func (t *Tape) set(datagram []byte, events []Event, big bool) {
	t.datagram, t.events, t.big = datagram, events, big
}

// cut makes a message of each event of one, and of those behind it.
func (t *Tape) cut() []Message {
	t.messages = t.messages[:0]
	for at := range t.events {
		if t.events[at].Sort != SortMessage {
			continue
		}
		if last := len(t.messages) - 1; last >= 0 {
			t.messages[last].end = uint32(at)
		}
		t.messages = append(t.messages, Message{part{t, uint32(at), uint32(len(t.events))}})
	}
	return t.messages
}

func eventsAt(events []Event) *C.struct_rtnlc_event {
	if len(events) == 0 {
		return nil
	}
	return (*C.struct_rtnlc_event)(unsafe.Pointer(&events[0]))
}
