package rtnlc

// #include <rtnlc.h>
import "C"

// A Stream reads dumps as a Session does, without tables: each datagram that is fed gives the
// entries of the dump that are in it. It holds no more memory than the events of the longest
// datagram take, sixteen bytes for each four of it at most, and there is nothing to close. A List
// keeps what it gives. It is not to be copied: a copy panics where it is used. A call while another
// goroutine is in one changes nothing, and its error is ErrInUse.
type Stream struct {
	own  guard
	made C.struct_rtnlc_stream
	tape Tape
}

// NewStream makes a stream. The limit of entries says nothing here. The error is ErrBadLimit, as
// an *Error.
func NewStream(options *Options) (*Stream, error) {
	s := &Stream{}
	s.own.stay("Stream")
	if code := C.rtnlc_stream_new(&s.made, options.c()); code != ok {
		return nil, refusal(code, 0)
	}
	s.tape.big = options.isBigEndian()
	return s, nil
}

// Begin begins a dump and answers its request, as that of a Session. The error is an *Error:
// ErrNoStream, ErrNoKind, ErrBusy or ErrSameSeq. Then nothing has changed.
func (s *Stream) Begin(messageType uint16, family uint8, seq, port uint32) ([]byte, error) {
	if err := s.own.enter("Stream"); err != nil {
		return nil, err
	}
	defer s.own.leave()
	request := make([]byte, C.RTNLC_REQUEST)
	put := C.rtnlc_stream_begin(&s.made, C.uint16_t(messageType), C.uint8_t(family),
		C.uint32_t(seq), C.uint32_t(port), bytesAt(request), C.size_t(len(request)))
	if put.code != ok {
		return nil, refusal(put.code, 0)
	}
	return request[:put.len], nil
}

// Feed takes a datagram into the dump that waits, and answers the messages in it that are the
// dump's items. They lie over the datagram, and are good until the stream is fed again. The error
// is an *Error: ErrNoStream or ErrNotWaiting; ErrTotal; ErrTooLarge; ErrCut to ErrTooDeep at the
// first fault. Then there are no messages, and the dump waits as before; but for the first two it
// is damaged from then on.
func (s *Stream) Feed(datagram []byte) (Fed, error) {
	if err := s.own.enter("Stream"); err != nil {
		return Fed{}, err
	}
	defer s.own.leave()
	room := s.tape.room(datagram)
	fed := C.rtnlc_stream_feed(&s.made, bytesAt(datagram), C.size_t(len(datagram)), eventsAt(room),
		C.size_t(len(room)))
	if fed.code != ok {
		return Fed{}, refusal(fed.code, fed.place)
	}
	s.tape.set(datagram, room[:fed.events], s.tape.big)
	answer := fedOf(fed)
	answer.Messages = s.tape.cut()
	return answer, nil
}

// Abandon ends the dump that waits. The error is ErrNotWaiting or ErrNoStream, as an *Error.
func (s *Stream) Abandon() error {
	if err := s.own.enter("Stream"); err != nil {
		return err
	}
	defer s.own.leave()
	return refusal(C.rtnlc_stream_abandon(&s.made), 0)
}

// Status is where the last dump stands.
func (s *Stream) Status() Status {
	if s.own.enter("Stream") != nil {
		return Status{InUse: true}
	}
	defer s.own.leave()
	return statusOf(C.rtnlc_stream_status(&s.made))
}
