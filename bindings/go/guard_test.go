package rtnlc

import (
	"errors"
	"reflect"
	"runtime"
	"strings"
	"sync"
	"sync/atomic"
	"testing"
	"time"
)

// A dump is what a Session and a Stream share.
type dump interface {
	Begin(messageType uint16, family uint8, seq, port uint32) ([]byte, error)
	Feed(datagram []byte) (Fed, error)
	Abandon() error
	Status() Status
}

// begunDumps are a session and a stream that wait for links, with room for the longest datagram.
func begunDumps(t *testing.T) (*Session, *Stream) {
	t.Helper()
	options := StandardOptions()
	options.Total, options.Datagram = 1<<40, 1<<20
	session, err := NewSession(&options)
	stream, failed := NewStream(&options)
	if err != nil || failed != nil {
		t.Fatal(err, failed)
	}
	t.Cleanup(func() { session.Close() })
	for _, it := range []dump{session, stream} {
		if _, err := it.Begin(RTM_GETLINK, 0, 1, 2); err != nil {
			t.Fatal(err)
		}
	}
	return session, stream
}

// someLinks is a datagram of messages of one link.
func someLinks(t *testing.T, count int) []byte {
	t.Helper()
	options := StandardOptions()
	options.Datagram = 1 << 20
	b := NewBuilder(make([]byte, 32*count), &options)
	for at := 0; at < count; at++ {
		b.Begin(Header{Type: RTM_NEWLINK, Flags: NLM_F_MULTI, Seq: 1, Port: 2}, LinkHead{Index: 1})
		b.End()
	}
	datagram, err := b.Finish()
	if err != nil {
		t.Fatal(err)
	}
	return datagram
}

// copyOf is a copy by value, where go vet doesn't see it.
func copyOf[T any](it *T) *T {
	copied := *it
	return &copied
}

// panicked is what a method panics with, or nil.
func panicked(method reflect.Value) (found any) {
	defer func() { found = recover() }()
	count := method.Type().NumIn()
	if method.Type().IsVariadic() {
		count--
	}
	arguments := make([]reflect.Value, count)
	for at := range arguments {
		arguments[at] = reflect.Zero(method.Type().In(at))
	}
	method.Call(arguments)
	return nil
}

// A copied is a copy of something in use.
type copied struct {
	name  string
	it    any
	reads string // methods that only look at what the copy has
}

// copies are those of a session, a stream and of what else is used with them.
func copies(t *testing.T, session *Session, stream *Stream, datagram []byte) []copied {
	t.Helper()
	tape, list, builder := new(Tape), new(List), NewBuilder(make([]byte, 64), nil)
	messages, err := tape.Parse(datagram)
	if err != nil {
		t.Fatal(err)
	}
	list.Append(messages...)
	if _, err := session.Feed(datagram); err != nil {
		t.Fatal(err)
	}
	table := session.Links()
	if !table.Next() {
		t.Fatal(table.Err())
	}
	return []copied{
		{"Session", copyOf(session), ""},
		{"Stream", copyOf(stream), ""},
		{"Builder", copyOf(builder), ""},
		{"Table", copyOf(table), "Entry Err Size"},
		{"Tape", copyOf(tape), "Events Visits"},
		{"List", copyOf(list), "Messages Size"},
	}
}

func TestCopies(t *testing.T) {
	session, stream := begunDumps(t)
	datagram := someLinks(t, 1)
	for _, row := range copies(t, session, stream, datagram) {
		wanted := "rtnlc: a " + row.name + " was copied by value, and the copy is used"
		it, refused := reflect.ValueOf(row.it), 0
		for at := 0; at < it.NumMethod(); at++ {
			name := it.Type().Method(at).Name
			if strings.Contains(row.reads, name) {
				continue
			}
			refused++
			if found := panicked(it.Method(at)); found != wanted {
				t.Errorf("%s of a copied %s: %v", name, row.name, found)
			}
		}
		if refused == 0 {
			t.Errorf("%s has no methods", row.name)
		}
	}
	// What was copied goes on, and is freed once.
	if _, err := session.Feed(datagram); err != nil {
		t.Error(err)
	}
	if err := session.Close(); err != nil {
		t.Error(err)
	}
}

// What was never used may be copied.
func TestCopiesOfNothing(t *testing.T) {
	messages, err := copyOf(new(Tape)).Parse(someLinks(t, 1))
	if err != nil {
		t.Fatal(err)
	}
	list := copyOf(new(List))
	list.Append(messages...)
	if count, _ := list.Size(); count != 1 {
		t.Error(count)
	}
	if err := copyOf(new(Session)).Abandon(); !errors.Is(err, ErrNoSession) {
		t.Error(err)
	}
}

// Each call answers an error while another lasts, and changes nothing.
func TestCallsInsideOfAnother(t *testing.T) {
	session, stream := begunDumps(t)
	before := []Status{session.Status(), stream.Status()}
	for at, it := range []dump{session, stream} {
		own := []*guard{&session.own, &stream.own}[at]
		if err := own.enter(""); err != nil {
			t.Fatal(err)
		}
		_, begun := it.Begin(RTM_GETLINK, 0, 2, 2)
		_, fed := it.Feed(make([]byte, 8))
		for _, err := range []error{begun, fed, it.Abandon(), it.Status().Err()} {
			if err != ErrInUse {
				t.Error(err)
			}
		}
		if it == dump(session) {
			inSession(t, session)
		}
		own.leave()
		if found := it.Status(); found != before[at] {
			t.Error(found)
		}
	}
}

// inSession makes the calls that a session has alone, while another lasts.
func inSession(t *testing.T, session *Session) {
	t.Helper()
	next, size := session.Links(), session.Links()
	if next.Next() {
		t.Error("an entry")
	}
	if count, limit, missed := size.Size(); count != 0 || limit != 0 || missed != 0 {
		t.Error(count, limit, missed)
	}
	for _, err := range []error{next.Err(), size.Err(), session.Close()} {
		if err != ErrInUse {
			t.Error(err)
		}
	}
}

// Two goroutines feed until one of them finds the other in a call: what was taken was taken whole.
func TestTwoGoroutines(t *testing.T) {
	session, stream := begunDumps(t)
	datagram := someLinks(t, 1<<15)
	for _, it := range []dump{session, stream} {
		var all sync.WaitGroup
		var taken, refused atomic.Int64
		end := time.Now().Add(20 * time.Second)
		for at := 0; at < 2; at++ {
			all.Add(1)
			go func(it dump) {
				defer all.Done()
				for (taken.Load() == 0 || refused.Load() == 0) && time.Now().Before(end) {
					switch _, err := it.Feed(datagram); err {
					case nil:
						taken.Add(1)
					case ErrInUse:
						refused.Add(1)
					default:
						t.Error(err)
						return
					}
				}
			}(it)
		}
		all.Wait()
		received := it.Status().Received
		if refused.Load() == 0 || received != uint64(taken.Load())*uint64(len(datagram)) {
			t.Errorf("%T: %d taken, %d refused, %d bytes", it, taken.Load(), refused.Load(), received)
		}
	}
}

// A session that nothing refers to is freed, though it leads to itself.
func TestCollectedSessions(t *testing.T) {
	freed := make(chan bool)
	func() {
		session, err := NewSession(nil)
		if err != nil {
			t.Fatal(err)
		}
		runtime.SetFinalizer(session.held, nil)
		runtime.SetFinalizer(session.held, func(it *held) { it.free(); close(freed) })
	}()
	for end := time.Now().Add(20 * time.Second); time.Now().Before(end); {
		runtime.GC()
		select {
		case <-freed:
			return
		case <-time.After(time.Millisecond):
		}
	}
	t.Error("it is not freed")
}
