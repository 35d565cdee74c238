package rtnlc_test

import (
	"errors"
	"runtime"
	"strings"
	"sync"
	"syscall"
	"testing"

	"rtnl.invalid/rtnlc"
)

// begun is a session that waits for the links of the tests' dump.
func begun(t testing.TB, options *rtnlc.Options) *rtnlc.Session {
	t.Helper()
	s, err := rtnlc.NewSession(options)
	if err != nil {
		t.Fatal(err)
	}
	t.Cleanup(func() { s.Close() })
	request, err := s.Begin(rtnlc.RTM_GETLINK, 0, seq, port)
	if err != nil || len(request) != 32 {
		t.Fatal(request, err)
	}
	return s
}

// feed takes a datagram that must be taken.
func feed(t testing.TB, s *rtnlc.Session, datagram []byte) rtnlc.Fed {
	t.Helper()
	fed, err := s.Feed(datagram)
	if err != nil {
		t.Fatal(err)
	}
	return fed
}

func names(t testing.TB, table *rtnlc.Table[rtnlc.Link]) string {
	t.Helper()
	var found []string
	for table.Next() {
		found = append(found, told(table.Entry().Index(), true), told(table.Entry().Name()))
	}
	equal(t, "error", table.Err(), nil)
	equal(t, "behind the end", table.Next(), false)
	return strings.Join(found, " ")
}

func TestSession(t *testing.T) {
	s := begun(t, nil)
	equal(t, "waits", s.Status().Err(), rtnlc.ErrNotEnded)
	equal(t, "fed", feed(t, s, joined(link(2, attr(3, "b\x00")), link(1, attr(3, "a\x00")),
		message(rtnlc.NLMSG_NOOP))), "{[] 2 1 false}")
	// One more of a key takes the place of the first.
	equal(t, "fed", feed(t, s, joined(link(2, attr(3, "c\x00")), done(0))), "{[] 1 0 true}")
	equal(t, "links", names(t, s.Links()), "2 c 1 a")
	count, limit, missed := s.Links().Size()
	equal(t, "size", []any{count, limit, missed}, "[2 4096 0]")
	equal(t, "status", s.Status(), "{156 24 1 7 4242 0 16 0 done false false true false}")
	equal(t, "complete", s.Status().Err(), nil)
	equal(t, "rules", s.Rules().Next(), false)

	// The next dump empties its own table alone.
	_, err := s.Begin(rtnlc.RTM_GETROUTE, rtnlc.AF_INET, seq+1, port)
	equal(t, "error", err, nil)
	equal(t, "links stay", names(t, s.Links()), "2 c 1 a")
	equal(t, "abandoned", s.Abandon(), nil)
	equal(t, "abandoned", s.Status().Err(), rtnlc.ErrAbandoned)
	_, err = s.Begin(rtnlc.RTM_GETLINK, 0, seq+2, port)
	equal(t, "error", err, nil)
	equal(t, "links are gone", names(t, s.Links()), "")
}

func TestTables(t *testing.T) {
	s, err := rtnlc.NewSession(nil)
	if err != nil {
		t.Fatal(err)
	}
	defer s.Close()
	found := map[string]string{}
	for at, row := range []struct {
		messageType uint16
		head        []byte
	}{
		{rtnlc.RTM_NEWADDR, addressHead}, {rtnlc.RTM_NEWROUTE, routeHead},
		{rtnlc.RTM_NEWNEIGH, neighbourHead}, {rtnlc.RTM_NEWRULE, ruleHead},
	} {
		request, err := s.Begin(row.messageType, 0, uint32(at), port)
		if err != nil || len(request) != 16+len(row.head) {
			t.Fatal(len(request), err)
		}
		datagram := joined(message(row.messageType, row.head), done(0))
		datagram[8], datagram[len(datagram)-12] = byte(at), byte(at)
		equal(t, "ended", feed(t, s, datagram).Ended, true)
	}
	err = s.Addresses().Each(func(it rtnlc.Address) { found["address"] += told(it.Index(), true) })
	equal(t, "error", err, nil)
	err = s.Routes().Each(func(it rtnlc.Route) { found["route"] += told(it.Table(), true) })
	equal(t, "error", err, nil)
	err = s.Neighbours().Each(func(it rtnlc.Neighbour) { found["neigh"] += told(it.State(), true) })
	equal(t, "error", err, nil)
	err = s.Rules().Each(func(it rtnlc.Rule) { found["rule"] += told(it.Table(), true) })
	equal(t, "error", err, nil)
	equal(t, "entries", found, "map[address:7 neigh:128 route:254 rule:253]")
}

// An entry that is longer than those before it.
func TestLongEntries(t *testing.T) {
	s := begun(t, nil)
	long := strings.Repeat("x", 30000)
	feed(t, s, joined(link(1, attr(3, "a")), link(2, attr(20, long)), link(3, attr(3, "c"))))
	var lengths []int
	err := s.Links().Each(func(it rtnlc.Link) { lengths = append(lengths, len(it.Body())) })
	equal(t, "error", err, nil)
	equal(t, "lengths", lengths, []int{24, 16 + 4 + 30000, 24})
}

// How a dump ends, and what Status.Err says of it.
func TestEnds(t *testing.T) {
	small := rtnlc.StandardOptions()
	small.Entries = 1
	for _, row := range []struct {
		name     string
		options  *rtnlc.Options
		datagram []byte
		wanted   error
	}{
		{"done", nil, done(0), nil},
		{"done with a status", nil, done(5), nil},
		{"done with an error", nil, done(-16), syscall.EBUSY},
		{"an error", nil, message(rtnlc.NLMSG_ERROR, uint32(0xffffffff), make([]byte, 16)),
			syscall.EPERM},
		{"an overrun", nil, message(rtnlc.NLMSG_OVERRUN), rtnlc.ErrOverrun},
		{"interrupted", nil, flagged(rtnlc.NLMSG_DONE, rtnlc.NLM_F_DUMP_INTR, uint32(0)),
			rtnlc.ErrInterrupted},
		{"missed", &small, joined(link(1), link(2), done(0)), rtnlc.ErrMissed},
		{"an acknowledgement", nil, message(rtnlc.NLMSG_ERROR, uint32(0), make([]byte, 16)),
			rtnlc.ErrNotEnded},
	} {
		s := begun(t, row.options)
		feed(t, s, row.datagram)
		err := s.Status().Err()
		if !errors.Is(err, row.wanted) {
			t.Errorf("%s: %v", row.name, err)
		}
		equal(t, row.name, s.Status().Complete, row.wanted == nil)
	}
	s := begun(t, nil)
	_, err := s.Feed(broken)
	equal(t, "refused", err, "rtnlc: bad length at 32")
	feed(t, s, done(0))
	equal(t, "damaged", s.Status().Err(), rtnlc.ErrDamaged)
}

func TestStates(t *testing.T) {
	equal(t, "words", []rtnlc.State{rtnlc.Idle, rtnlc.Waiting, rtnlc.Done, rtnlc.Failed,
		rtnlc.Overrun, rtnlc.Abandoned, 6}, "[idle waiting done failed overrun abandoned 6]")
}

func TestKernelError(t *testing.T) {
	s := begun(t, nil)
	feed(t, s, done(-13))
	err := s.Status().Err()
	var refused *rtnlc.KernelError
	equal(t, "is one", errors.As(err, &refused), true)
	equal(t, "number", refused.Errno == syscall.EACCES, true)
	equal(t, "text", err, "rtnlc: refused by the kernel: permission denied")
}

func TestWrongUses(t *testing.T) {
	s := begun(t, nil)
	_, err := s.Begin(rtnlc.RTM_GETLINK, 0, seq+1, port)
	equal(t, "busy", errors.Is(err, rtnlc.ErrBusy), true)
	equal(t, "abandon", s.Abandon(), nil)
	equal(t, "not waiting", errors.Is(s.Abandon(), rtnlc.ErrNotWaiting), true)
	_, err = s.Feed(done(0))
	equal(t, "not waiting", errors.Is(err, rtnlc.ErrNotWaiting), true)
	_, err = s.Begin(rtnlc.RTM_GETLINK, 0, seq, port)
	equal(t, "same", errors.Is(err, rtnlc.ErrSameSeq), true)
	_, err = s.Begin(rtnlc.NLMSG_DONE, 0, seq+1, port)
	equal(t, "no kind", errors.Is(err, rtnlc.ErrNoKind), true)

	total := rtnlc.StandardOptions()
	total.Total = 19
	_, err = begun(t, &total).Feed(done(0))
	equal(t, "total", errors.Is(err, rtnlc.ErrTotal), true)
}

func TestClosedSessions(t *testing.T) {
	closed := begun(t, nil)
	feed(t, closed, link(1))
	links := closed.Links()
	equal(t, "close", closed.Close(), nil)
	equal(t, "close again", closed.Close(), nil)
	for _, s := range []*rtnlc.Session{closed, {}} {
		_, err := s.Begin(rtnlc.RTM_GETLINK, 0, seq+1, port)
		equal(t, "begin", errors.Is(err, rtnlc.ErrNoSession), true)
		_, err = s.Feed(done(0))
		equal(t, "feed", errors.Is(err, rtnlc.ErrNoSession), true)
		equal(t, "abandon", errors.Is(s.Abandon(), rtnlc.ErrNoSession), true)
		equal(t, "status", s.Status(), rtnlc.Status{})
		count, limit, _ := s.Links().Size()
		equal(t, "size", count+limit, 0)
	}
	equal(t, "next", links.Next(), false)
	equal(t, "error", errors.Is(links.Err(), rtnlc.ErrNoSession), true)
	equal(t, "each", errors.Is(closed.Rules().Each(nil), rtnlc.ErrNoSession), true)
}

// What nobody closes is closed by the collector: in memory for a hundred sessions a thousand find
// room, one after another.
func TestFinalizer(t *testing.T) {
	resident := func() uint64 {
		var usage syscall.Rusage
		if err := syscall.Getrusage(syscall.RUSAGE_SELF, &usage); err != nil {
			t.Fatal(err)
		}
		return uint64(usage.Maxrss)
	}
	large := link(1, attr(20, strings.Repeat("x", 60000)))
	grow := func(count int) {
		for at := 0; at < count; at++ {
			s, err := rtnlc.NewSession(nil)
			if err == nil {
				_, err = s.Begin(rtnlc.RTM_GETLINK, 0, seq, port)
			}
			if err != nil {
				t.Fatal(err)
			}
			feed(t, s, large)
			if at%50 == 49 {
				runtime.GC()
				runtime.GC()
			}
		}
	}
	grow(200)
	before := resident()
	grow(2000)
	if more := resident() - before; more > 40000 {
		t.Errorf("2000 sessions of 60 kB that nobody closed left %d kB more", more)
	}
}

func TestStream(t *testing.T) {
	s, err := rtnlc.NewStream(nil)
	if err != nil {
		t.Fatal(err)
	}
	_, err = s.Feed(done(0))
	equal(t, "not waiting", errors.Is(err, rtnlc.ErrNotWaiting), true)
	request, err := s.Begin(rtnlc.RTM_GETLINK, 0, seq, port)
	equal(t, "request", told(len(request), err == nil), 32)
	_, err = s.Begin(rtnlc.RTM_GETLINK, 0, seq+1, port)
	equal(t, "busy", errors.Is(err, rtnlc.ErrBusy), true)

	other := link(9)
	other[8]++ // of another dump
	fed, err := s.Feed(joined(link(1, attr(3, "a")), other, message(rtnlc.NLMSG_NOOP, "x"),
		link(1, attr(3, "b"))))
	equal(t, "fed", told(fed.Items, err == nil), 2)
	equal(t, "ignored", fed.Ignored, 2)
	var found []string
	for _, m := range fed.Messages {
		l, _ := m.Link()
		found = append(found, told(l.Index(), true), told(l.Name()))
	}
	equal(t, "items", found, "[1 a 1 b]")
	_, err = s.Feed(broken)
	equal(t, "refused", err, "rtnlc: bad length at 32")
	fed, err = s.Feed(done(0))
	equal(t, "ended", told(fed.Ended, err == nil), true)
	equal(t, "no item", len(fed.Messages), 0)
	equal(t, "damaged", s.Status().Err(), rtnlc.ErrDamaged)
	equal(t, "abandon", errors.Is(s.Abandon(), rtnlc.ErrNotWaiting), true)
	_, err = new(rtnlc.Stream).Begin(rtnlc.RTM_GETLINK, 0, seq, port)
	equal(t, "never made", errors.Is(err, rtnlc.ErrNoStream), true)
	equal(t, "never made", new(rtnlc.Stream).Status(), rtnlc.Status{})
}

func TestStreamBigEndian(t *testing.T) {
	options := rtnlc.StandardOptions()
	options.BigEndian = true
	s, err := rtnlc.NewStream(&options)
	if err == nil {
		_, err = s.Begin(rtnlc.RTM_GETLINK, 0, seq, 0x1092)
	}
	if err != nil {
		t.Fatal(err)
	}
	fed, err := s.Feed([]byte("\x00\x00\x00\x20\x00\x10\x00\x02\x00\x00\x00\x07\x00\x00\x10\x92" +
		"\x00\x00\x00\x01\x00\x00\x00\x07\x00\x01\x10\x43\x00\x00\x00\x00"))
	if err != nil || len(fed.Messages) != 1 {
		t.Fatal(fed, err)
	}
	l, _ := fed.Messages[0].Link()
	equal(t, "index", l.Index(), 7)
}

// Goroutines with tapes and a session each, which goes to another one.
func TestGoroutines(t *testing.T) {
	var all sync.WaitGroup
	given := make(chan *rtnlc.Session, 8)
	for at := 0; at < 8; at++ {
		all.Add(1)
		go func(index uint32) {
			defer all.Done()
			s := begun(t, nil)
			datagram := joined(link(index, attr(3, "a")), done(0))
			for turn := 0; turn < 200; turn++ {
				messages, err := rtnlc.Parse(datagram)
				if err != nil || len(messages) != 2 {
					t.Error(messages, err)
				}
			}
			if _, err := s.Feed(datagram); err != nil {
				t.Error(err)
			}
			given <- s
		}(uint32(at))
	}
	all.Wait()
	sum := 0
	for at := 0; at < 8; at++ {
		err := (<-given).Links().Each(func(it rtnlc.Link) { sum += it.Index() })
		equal(t, "error", err, nil)
	}
	equal(t, "indexes", sum, 28)
}
