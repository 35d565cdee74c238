package rtnlc

// #include <rtnlc.h>
import "C"

import "runtime"

// A Session reads one dump after another into tables: begin one, send its request, feed what comes
// back until it has ended, and go over the table. Its tables are memory of the library, bounded by
// the options; Close gives it back. It is not to be copied: a copy panics where it is used. A call
// while another goroutine is in one changes nothing, and its error is ErrInUse.
type Session struct {
	own     guard
	held    *held
	options Options
}

// held is what the collector frees. It stands apart from the guard: what leads to itself is never
// found to be unused.
type held struct{ made C.struct_rtnlc_session }

func (h *held) free() { C.rtnlc_session_free(&h.made) }

// NewSession makes a session. The error is ErrBadLimit, ErrNoMemory or ErrNoSeed, as an *Error.
func NewSession(options *Options) (*Session, error) {
	s := &Session{held: &held{}, options: StandardOptions()}
	s.own.stay("Session")
	if options != nil {
		s.options = *options
	}
	if code := C.rtnlc_session_new(s.c(), s.options.c()); code != ok {
		return nil, refusal(code, 0)
	}
	runtime.SetFinalizer(s.held, (*held).free)
	return s, nil
}

// c is what the library takes: null of a session that NewSession did not make.
func (s *Session) c() *C.struct_rtnlc_session {
	if s.held == nil {
		return nil
	}
	return &s.held.made
}

// Close frees the session and all that it holds; it may be closed again. All other calls then
// answer ErrNoSession, or what a session is that has begun no dump. The error is ErrInUse or nil. A
// session that nothing refers to is closed by the collector.
func (s *Session) Close() error {
	if err := s.own.enter("Session"); err != nil {
		return err
	}
	defer s.own.leave()
	if s.held != nil {
		runtime.SetFinalizer(s.held, nil)
		s.held.free()
	}
	return nil
}

// Begin begins a dump and answers its request, which the caller sends. The message type is any of
// the family, as RTM_GETLINK; the address family is 0 for all; the port is that of the socket. The
// family's table is emptied, the others stay. The error is an *Error: ErrNoKind; ErrBusy where a
// dump waits; ErrSameSeq for the number of the dump before; ErrNoMemory; ErrNoSession. Then
// nothing has changed.
func (s *Session) Begin(messageType uint16, family uint8, seq, port uint32) ([]byte, error) {
	if err := s.own.enter("Session"); err != nil {
		return nil, err
	}
	defer s.own.leave()
	request := make([]byte, C.RTNLC_REQUEST)
	put := C.rtnlc_session_begin(s.c(), C.uint16_t(messageType), C.uint8_t(family),
		C.uint32_t(seq), C.uint32_t(port), bytesAt(request), C.size_t(len(request)))
	if put.code != ok {
		return nil, refusal(put.code, 0)
	}
	return request[:put.len], nil
}

// Feed takes a datagram into the dump that waits: all of its entries or, on an error, none. The
// error is an *Error: ErrNoSession or ErrNotWaiting; ErrTotal; ErrTooLarge; ErrCut to ErrTooDeep
// at the first fault; ErrNoMemory. Behind it the dump waits as before, and all tables are as they
// were; but for the first two the dump is damaged from then on.
func (s *Session) Feed(datagram []byte) (Fed, error) {
	if err := s.own.enter("Session"); err != nil {
		return Fed{}, err
	}
	defer s.own.leave()
	fed := C.rtnlc_session_feed(s.c(), bytesAt(datagram), C.size_t(len(datagram)))
	return fedOf(fed), refusal(fed.code, fed.place)
}

// Abandon ends the dump that waits; its table stays. The error is ErrNotWaiting or ErrNoSession,
// as an *Error.
func (s *Session) Abandon() error {
	if err := s.own.enter("Session"); err != nil {
		return err
	}
	defer s.own.leave()
	return refusal(C.rtnlc_session_abandon(s.c()), 0)
}

// Status is where the last dump stands.
func (s *Session) Status() Status {
	if s.own.enter("Session") != nil {
		return Status{InUse: true}
	}
	defer s.own.leave()
	return statusOf(C.rtnlc_session_status(s.c()))
}

// Links is the table of the links of the last dump of links.
func (s *Session) Links() *Table[Link] { return &Table[Link]{entries: s.table(RTM_NEWLINK)} }

// Addresses is the table of addresses.
func (s *Session) Addresses() *Table[Address] {
	return &Table[Address]{entries: s.table(RTM_NEWADDR)}
}

// Routes is the table of routes.
func (s *Session) Routes() *Table[Route] { return &Table[Route]{entries: s.table(RTM_NEWROUTE)} }

// Neighbours is the table of neighbours.
func (s *Session) Neighbours() *Table[Neighbour] {
	return &Table[Neighbour]{entries: s.table(RTM_NEWNEIGH)}
}

// Rules is the table of rules.
func (s *Session) Rules() *Table[Rule] { return &Table[Rule]{entries: s.table(RTM_NEWRULE)} }

// A Table goes over the entries of a family in the order of their first appearance, by Next or by
// Each:
//
//	links := session.Links()
//	for links.Next() {
//		link := links.Entry()
//	}
//	err := links.Err()
//
// An entry is a whole message, in a buffer of the table: it is good until the next Next.
type Table[V View] struct{ entries }

// Entry is the entry that Next went to.
func (t *Table[V]) Entry() V { return V{t.message} }

// Each calls a function with each further entry, and answers Err.
func (t *Table[V]) Each(do func(V)) error {
	for t.Next() {
		do(t.Entry())
	}
	return t.Err()
}

// entries are those of a table, whatever its family.
type entries struct {
	session *Session
	kind    uint16
	next    uint32
	buffer  []byte
	tape    Tape
	message Message
	err     error
}

// table has room for most entries from the start: one that needs more is written twice.
func (s *Session) table(kind uint16) entries {
	const most = 4096
	s.own.stay("Session")
	return entries{session: s, kind: kind, tape: Tape{Options: &s.options},
		buffer: make([]byte, most)}
}

// Next goes to the next entry, and says whether there is one.
func (t *entries) Next() bool {
	t.message = Message{}
	t.tape.own.stay("Table")
	if err := t.session.own.enter("Session"); err != nil {
		t.err = err
		return false
	}
	defer t.session.own.leave()
	for t.err == nil {
		put := C.rtnlc_session_entry(t.session.c(), C.uint16_t(t.kind), C.uint32_t(t.next),
			bytesAt(t.buffer), C.size_t(len(t.buffer)))
		switch put.code {
		case ok:
			t.next++
			return t.parse(t.buffer[:put.len])
		case C.RTNLC_NO_ROOM:
			t.buffer = make([]byte, 2*put.len)
		case end:
			return false
		default:
			t.err = refusal(put.code, 0)
		}
	}
	return false
}

func (t *entries) parse(entry []byte) bool {
	messages, err := t.tape.Parse(entry)
	if err != nil {
		t.err = err
		return false
	}
	t.message = messages[0]
	return true
}

// Err is why Next went no further, or nil where there was no further entry. It is an *Error, as
// ErrNoSession; or ErrInUse, of Size too.
func (t *entries) Err() error { return t.err }

// Size is how many entries the table has, how many it may have, and how often a new one found no
// room. Of a closed session all are 0.
func (t *entries) Size() (count, limit int, missed uint64) {
	if err := t.session.own.enter("Session"); err != nil {
		t.err = err
		return 0, 0, 0
	}
	defer t.session.own.leave()
	size := C.rtnlc_session_table(t.session.c(), C.uint16_t(t.kind))
	return int(size.count), int(size.limit), uint64(size.missed)
}
