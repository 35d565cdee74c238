package rtnlc

// #include <rtnlc.h>
import "C"

import (
	"errors"
	"strconv"
	"syscall"
)

// A State is where the last dump stands.
type State uint8

// The states of a dump.
const (
	Idle      State = C.RTNLC_IDLE      // none was begun
	Waiting   State = C.RTNLC_WAITING   // it waits for its answers
	Done      State = C.RTNLC_DONE      // it has ended by DONE; a status of 0 or more is no failure
	Failed    State = C.RTNLC_FAILED    // it has ended by ERROR
	Overrun   State = C.RTNLC_OVERRUN   // it has ended by OVERRUN
	Abandoned State = C.RTNLC_ABANDONED // the caller has ended it
)

var states = [...]string{"idle", "waiting", "done", "failed", "overrun", "abandoned"}

// String is the state as a word in lower case, or as its number where it is none.
func (s State) String() string {
	if int(s) < len(states) {
		return states[s]
	}
	return strconv.Itoa(int(s))
}

// A Fed is what a datagram was to the dump that waits.
type Fed struct {
	Messages []Message // of a Stream: the items, good until it is fed again
	Items    uint32    // how many messages are entries of the dump, those too that a table missed
	Ignored  uint32    // how many messages are neither that nor its end
	Ended    bool      // one of them has ended the dump
}

// A Status is where the last dump of a Session or a Stream stands.
type Status struct {
	Received    uint64 // bytes of all datagrams that were looked at, since it was made
	Visits      uint64 // bytes of attributes visited in them
	Ignored     uint64 // messages of the last dump that were neither entries nor its end
	Seq, Port   uint32
	Code        int32  // the status of DONE, 0 where it has none; or the code of ERROR
	Type        uint16 // the NEW type of the last dump's family, as RTM_NEWLINK
	Family      uint8  // the address family that it asked for
	State       State
	Damaged     bool // a datagram of the last dump was refused
	Interrupted bool // the kernel's table changed meanwhile: dump again
	Complete    bool // ended by DONE with no failure, and nothing of it was lost
	InUse       bool // all else is zero, since another goroutine was in a call
}

// Why a dump is not complete, as Status.Err has it.
var (
	ErrNotEnded    = errors.New("rtnlc: the dump has not ended")
	ErrAbandoned   = errors.New("rtnlc: the dump was abandoned")
	ErrOverrun     = errors.New("rtnlc: the kernel lost a part of the dump")
	ErrDamaged     = errors.New("rtnlc: a datagram of the dump was refused")
	ErrInterrupted = errors.New("rtnlc: the kernel's table changed during the dump")
	ErrMissed      = errors.New("rtnlc: entries found no room in the table")
)

// A KernelError is what the kernel answered instead of a dump, or at its end.
type KernelError struct{ Errno syscall.Errno }

// Error is as "rtnlc: refused by the kernel: operation not permitted".
func (e *KernelError) Error() string { return "rtnlc: refused by the kernel: " + e.Errno.Error() }

// Unwrap is the number, for errors.Is and errors.As.
func (e *KernelError) Unwrap() error { return e.Errno }

// Err is nil where the dump is complete. Else it is the first of these that applies: ErrInUse;
// ErrNotEnded, where none was begun too; ErrAbandoned; a *KernelError; ErrOverrun; ErrDamaged;
// ErrInterrupted; ErrMissed.
func (s Status) Err() error {
	switch {
	case s.InUse:
		return ErrInUse
	case s.Complete:
		return nil
	case s.State == Idle || s.State == Waiting:
		return ErrNotEnded
	case s.State == Abandoned:
		return ErrAbandoned
	case s.State == Failed && s.Code > 0:
		return &KernelError{syscall.Errno(s.Code)}
	case s.Code < 0:
		return &KernelError{syscall.Errno(-int64(s.Code))}
	case s.State == Overrun:
		return ErrOverrun
	case s.Damaged:
		return ErrDamaged
	case s.Interrupted:
		return ErrInterrupted
	}
	return ErrMissed
}

func statusOf(s C.struct_rtnlc_status) Status {
	return Status{
		Received:    uint64(s.received),
		Visits:      uint64(s.visits),
		Ignored:     uint64(s.ignored),
		Seq:         uint32(s.seq),
		Port:        uint32(s.port),
		Code:        int32(s.status),
		Type:        uint16(s.kind),
		Family:      uint8(s.family),
		State:       State(s.state),
		Damaged:     bool(s.damaged),
		Interrupted: bool(s.interrupted),
		Complete:    bool(s.complete),
	}
}

func fedOf(f C.struct_rtnlc_fed) Fed {
	return Fed{Items: uint32(f.items), Ignored: uint32(f.ignored), Ended: bool(f.ended)}
}
