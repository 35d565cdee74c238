package rtnlc

import (
	"errors"
	"sync/atomic"
)

// ErrInUse is the error of a call of a Session, of one of its tables or of a Stream while another
// goroutine is in such a call: it is used by one at a time. Nothing has changed then.
var ErrInUse = errors.New("rtnlc: another goroutine is in a call")

// A guard stands in what is not to be copied, since a copy leads to the same memory. go vet says
// where it is copied, by busy. The race detector doesn't see what the library writes, so a Session
// and a Stream tell of two calls at once by themselves.
type guard struct {
	at   *guard      // where it stands, since the first call
	busy atomic.Bool // a call lasts
}

// stay panics in a copy of what was used.
func (g *guard) stay(what string) {
	if g.at == nil {
		g.at = g
	}
	if g.at != g {
		panic("rtnlc: a " + what + " was copied by value, and the copy is used")
	}
}

// enter begins a call, which leave ends. The error is ErrInUse.
func (g *guard) enter(what string) error {
	g.stay(what)
	if !g.busy.CompareAndSwap(false, true) {
		return ErrInUse
	}
	return nil
}

func (g *guard) leave() { g.busy.Store(false) }
