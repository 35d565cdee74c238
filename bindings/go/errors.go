package rtnlc

// #include <rtnlc.h>
import "C"

import "fmt"

// A Code says why something was refused. It is an error, which errors.Is finds in an *Error.
type Code uint8

// The codes of the library. The first six are of a datagram, and stand with a place but for
// ErrTooLarge.
const (
	ErrCut        Code = C.RTNLC_CUT         // fewer bytes are left than a head has
	ErrBadLength  Code = C.RTNLC_BAD_LENGTH  // a length below its head's size, or above what is left
	ErrShortBody  Code = C.RTNLC_SHORT_BODY  // a message is shorter than the head of its type
	ErrTooLong    Code = C.RTNLC_TOO_LONG    // a container has more than 65,532 bytes
	ErrTooDeep    Code = C.RTNLC_TOO_DEEP    // a container opens a level above the depth limit
	ErrTooLarge   Code = C.RTNLC_TOO_LARGE   // a datagram above the limit; nothing was looked at
	ErrTotal      Code = C.RTNLC_TOTAL       // all datagrams would be above the total limit
	ErrNotWaiting Code = C.RTNLC_NOT_WAITING // no dump waits for its answers
	ErrBusy       Code = C.RTNLC_BUSY        // a dump waits for its answers
	ErrSameSeq    Code = C.RTNLC_SAME_SEQ    // the sequence number is that of the dump before
	ErrMismatch   Code = C.RTNLC_MISMATCH    // a value is of another kind than its attribute holds
	ErrBadLimit   Code = C.RTNLC_BAD_LIMIT   // an option is out of its range
	ErrNoMemory   Code = C.RTNLC_NO_MEMORY   // an allocation was refused
	ErrNoRoom     Code = C.RTNLC_NO_ROOM     // a buffer has less room than the answer needs
	ErrNoStream   Code = C.RTNLC_NO_STREAM   // a Stream that NewStream did not make
	ErrNoKind     Code = C.RTNLC_NO_KIND     // the message type is of no family that is dumped
	ErrNoSession  Code = C.RTNLC_NO_SESSION  // a Session that NewSession did not make, or is closed
	ErrNoSeed     Code = C.RTNLC_NO_SEED     // no random bytes for the hash of a Session's tables

	// These are of a Builder, as are ErrTooLong, ErrTooDeep, ErrTooLarge, ErrMismatch and ErrNoRoom. A
	// ChangeRequest has ErrTooLong, ErrTooLarge and ErrMismatch.
	ErrNothingOpen Code = C.RTNLC_NOTHING_OPEN // nothing is open that could be closed or put into
	ErrStillOpen   Code = C.RTNLC_STILL_OPEN   // something is open in what should end
	ErrNoBuilder   Code = C.RTNLC_NO_BUILDER   // a Builder that NewBuilder did not make

	ok  = C.RTNLC_OK
	end = C.RTNLC_END
)

// String is what the library says of a code, as "bad length".
func (c Code) String() string { return C.GoString(C.rtnlc_code_name(C.uint8_t(c))) }

// Error is the same, behind the name of the package.
func (c Code) Error() string { return "rtnlc: " + c.String() }

// An Error is a refusal.
type Error struct {
	Code  Code
	Place uint32 // the offset of the first fault, in bytes from the front of the datagram; or 0
}

// HasPlace says whether the refusal is of a head, which stands at Place.
func (e *Error) HasPlace() bool { return e.Code >= ErrCut && e.Code <= ErrTooDeep }

// Error is as "rtnlc: bad length at 40".
func (e *Error) Error() string {
	if !e.HasPlace() {
		return e.Code.Error()
	}
	return fmt.Sprintf("%v at %d", e.Code, e.Place)
}

// Unwrap is the code, for errors.Is and errors.As.
func (e *Error) Unwrap() error { return e.Code }

// refusal is the error of what a call answered, or nil.
func refusal(code C.uint8_t, place C.uint32_t) error {
	if code == ok {
		return nil
	}
	return &Error{Code(code), uint32(place)}
}
