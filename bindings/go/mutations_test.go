package rtnlc_test

import (
	"encoding/binary"
	"errors"
	"math/rand"
	"os"
	"path/filepath"
	"testing"

	"rtnl.invalid/rtnlc"
)

// A hundred thousand mutated datagrams, the same in each run, or with -short two thousand: each is
// refused as Scan refuses it, or every answer of every view, attribute and next hop in it is taken.
func TestMutations(t *testing.T) {
	choose := rand.New(rand.NewSource(1))
	whole := seeds(t)
	var tape, big rtnlc.Tape
	options, bigOptions := rtnlc.StandardOptions(), rtnlc.StandardOptions()
	bigOptions.BigEndian = true
	tape.Options, big.Options = &options, &bigOptions
	var seen tally
	turns := 100000
	if testing.Short() {
		turns = 2000
	}
	for turn := 0; turn < turns; turn++ {
		datagram := mutated(choose, whole)
		options.Depth = 8
		if turn%8 == 0 {
			options.Depth = uint8(choose.Intn(5))
		}
		seen.read(t, &tape, datagram)
		if turn%8 == 1 {
			seen.read(t, &big, datagram)
		}
		if turn%16 == 2 {
			for how, err := range verdicts(t, datagram) {
				_, scanned := rtnlc.Scan(datagram, nil)
				equal(t, how, said(err), said(scanned))
			}
		}
		if t.Failed() {
			t.Fatalf("%d: %x", turn, datagram)
		}
	}
	t.Log(seen)
	if !testing.Short() {
		seen.checkCounts(t)
	}
}

// checkCounts says which codes, and which parts of a datagram, came too seldom.
func (seen *tally) checkCounts(t *testing.T) {
	for code, count := range map[rtnlc.Code]int{rtnlc.ErrCut: 1000, rtnlc.ErrBadLength: 10000,
		rtnlc.ErrShortBody: 500, rtnlc.ErrTooDeep: 100, 0: 20000} {
		if seen.codes[code] < count {
			t.Errorf("%d datagrams with code %v", seen.codes[code], uint8(code))
		}
	}
	for at, count := range seen.views {
		if count < 5000 {
			t.Errorf("%d messages of the family %d", count, at)
		}
	}
	if seen.hops < 5000 || seen.attrs < 200000 {
		t.Errorf("%d next hops and %d attributes", seen.hops, seen.attrs)
	}
}

// seeds are datagrams of few messages: those that the tests write and, where they are here, those
// that a kernel sent, and their messages one by one.
func seeds(t *testing.T) (found [][]byte) {
	for _, row := range rows {
		found = append(found, row.datagram, joined(row.datagram, done(0)))
	}
	root := os.Getenv("RTNLC_REPOSITORY")
	if root == "" {
		root = filepath.Join("..", "..")
	}
	paths, _ := filepath.Glob(filepath.Join(root, "examples", "*.hex"))
	more, _ := filepath.Glob(filepath.Join(root, "measure", "*.hex"))
	for _, path := range append(paths, more...) {
		for _, datagram := range datagrams(t, path) {
			if len(datagram) < 400 {
				found = append(found, datagram)
			}
			messages, err := rtnlc.Parse(datagram)
			for at := 0; err == nil && at < len(messages) && at < 20; at++ {
				if one := messages[at]; len(one.Body()) < 1600 {
					h := one.Header()
					found = append(found, aligned(joined(h.Len, h.Type, h.Flags, h.Seq, h.Port,
						one.Body())))
				}
			}
		}
	}
	return found
}

// mutated is a datagram with one to three changes.
func mutated(choose *rand.Rand, whole [][]byte) []byte {
	some := func() []byte { return whole[choose.Intn(len(whole))] }
	made := append([]byte(nil), some()...)
	for changes := 1 + choose.Intn(3); changes > 0 && len(made) >= 20; changes-- {
		at := choose.Intn(len(made)/4) * 4
		near := uint16([]int{0, 3, 4, 8, 12, len(made) - at, len(made) - at + 1, len(made),
			choose.Intn(64), 65535}[choose.Intn(10)])
		switch choose.Intn(8) {
		case 0:
			made = made[:choose.Intn(len(made))]
		case 1:
			made[choose.Intn(len(made))] = byte(choose.Intn(256))
		case 2:
			binary.LittleEndian.PutUint16(made[at:], near)
		case 3:
			binary.LittleEndian.PutUint16(made[at+2:], uint16(choose.Intn(40))|
				uint16(choose.Intn(4))<<14)
		case 4:
			made[4] = byte(16 + choose.Intn(20))
		case 5: // a whole message more
			made = append(aligned(made), some()...)
		case 6: // a part of another one in its place
			other := some()
			copy(made[at:], other[choose.Intn(len(other)/4)*4:])
		case 7: // a list around what follows
			binary.LittleEndian.PutUint16(made[at:], uint16(len(made)-at))
			binary.LittleEndian.PutUint16(made[at+2:], uint16(1+choose.Intn(30))|nested)
		}
	}
	return made
}

// A tally is what there was.
type tally struct {
	codes       map[rtnlc.Code]int
	views       [5]int
	attrs, hops int
	sum         uint64 // of what was answered, so that it is
}

func (seen *tally) read(t *testing.T, tape *rtnlc.Tape, datagram []byte) {
	messages, err := tape.Parse(datagram)
	visits, scanned := rtnlc.Scan(datagram, tape.Options)
	equal(t, "refusal", said(err), said(scanned))
	equal(t, "visits", tape.Visits(), visits)
	var code rtnlc.Code
	errors.As(err, &code)
	if seen.codes == nil {
		seen.codes = map[rtnlc.Code]int{}
	}
	seen.codes[code]++
	count := 0
	for _, m := range messages {
		count += 1 + seen.take(m)
		equal(t, "in a clone", seen.take(m.Clone()), seen.take(m))
	}
	if err == nil {
		equal(t, "heads that were come to", count, len(tape.Events()))
	}
}

// add adds up what was found.
func (seen *tally) add(value int, found bool) {
	if found {
		seen.sum += uint64(value)
	}
}

// take takes every answer of a message, and says how many heads are in it.
func (seen *tally) take(m rtnlc.Message) int {
	seen.sum += uint64(m.Header().Seq) + uint64(len(m.Body()))
	for at, is := range []bool{seen.takeLink(m), seen.takeAddress(m), seen.takeRoute(m),
		seen.takeNeighbour(m), seen.takeRule(m)} {
		if is {
			seen.views[at]++
		}
	}
	return seen.takeAttrs(m.Attrs())
}

func (seen *tally) takeAttrs(attrs rtnlc.Attrs) int {
	count := 0
	for attrs.Next() {
		a := attrs.Attr()
		u8, has8 := a.Uint8()
		u16, has16 := a.Uint16()
		u32, has32 := a.Uint32()
		u64, has64 := a.Uint64()
		text, hasText := a.Text()
		addr, hasAddr := a.Addr()
		hardware, hasHardware := a.HardwareAddr()
		name, hasName := a.Name()
		_, found := a.Find(a.Number())
		seen.add(len(name), hasName)
		seen.add(int(u8), has8)
		seen.add(int(u16), has16)
		seen.add(int(u32), has32)
		seen.add(int(u64), has64)
		seen.add(len(text), hasText)
		seen.add(addr.BitLen(), hasAddr)
		seen.add(len(hardware), hasHardware)
		seen.add(int(a.Sort()), found && a.Nested() && !a.Net())
		seen.attrs++
		count += 1 + seen.takeAttrs(a.Attrs()) + seen.takeHops(a.NextHops())
	}
	return count
}

func (seen *tally) takeHops(hops rtnlc.NextHops) int {
	count := 0
	for hops.Next() {
		h := hops.NextHop()
		addr, found := h.Gateway()
		seen.add(addr.BitLen()+h.Index()+int(h.Flags())+h.Weight(), found)
		seen.hops++
		count += 1 + seen.takeAttrs(h.Attrs())
	}
	return count
}

func (seen *tally) takeLink(m rtnlc.Message) bool {
	l, is := m.Link()
	name, hasName := l.Name()
	mtu, hasMTU := l.MTU()
	hardware, hasHardware := l.HardwareAddr()
	kind, hasKind := l.Kind()
	state, hasState := l.OperState()
	seen.add(l.Master())
	seen.add(len(name), hasName)
	seen.add(int(mtu), hasMTU)
	seen.add(len(hardware), hasHardware)
	seen.add(len(kind), hasKind)
	seen.add(len(state.String()), hasState)
	seen.add(int(l.Family())+int(l.Type())+l.Index()+int(l.Flags()), is)
	return is
}

func (seen *tally) takeAddress(m rtnlc.Message) bool {
	a, is := m.Address()
	prefix, hasPrefix := a.Prefix()
	local, hasLocal := a.Local()
	label, hasLabel := a.Label()
	seen.add(prefix.Bits(), hasPrefix && prefix.IsValid())
	seen.add(local.BitLen(), hasLocal)
	seen.add(len(label), hasLabel)
	seen.add(int(a.Family())+int(a.Flags())+int(a.Scope())+a.Index(), is)
	return is
}

func (seen *tally) takeRoute(m rtnlc.Message) bool {
	r, is := m.Route()
	dst, hasDst := r.Dst()
	src, hasSrc := r.Src()
	gateway, hasGateway := r.Gateway()
	prefSrc, hasPrefSrc := r.PrefSrc()
	priority, hasPriority := r.Priority()
	seen.add(r.OutIndex())
	seen.add(dst.Bits(), hasDst && !r.IsDefault())
	seen.add(src.Bits(), hasSrc)
	seen.add(gateway.BitLen(), hasGateway)
	seen.add(prefSrc.BitLen(), hasPrefSrc)
	seen.add(int(priority), hasPriority)
	seen.add(int(r.Table())+int(r.Flags())+int(r.Family())+int(r.TOS())+int(r.Protocol())+
		int(r.Scope())+int(r.Type()), is)
	seen.takeHops(r.NextHops())
	return is
}

func (seen *tally) takeNeighbour(m rtnlc.Message) bool {
	n, is := m.Neighbour()
	addr, hasAddr := n.Addr()
	hardware, hasHardware := n.HardwareAddr()
	seen.add(addr.BitLen(), hasAddr)
	seen.add(len(hardware), hasHardware)
	seen.add(int(n.Family())+n.Index()+int(n.State())+int(n.Flags())+int(n.Type()), is)
	return is
}

func (seen *tally) takeRule(m rtnlc.Message) bool {
	r, is := m.Rule()
	from, hasFrom := r.From()
	to, hasTo := r.To()
	priority, hasPriority := r.Priority()
	mark, hasMark := r.Mark()
	mask, hasMask := r.Mask()
	in, hasIn := r.InName()
	out, hasOut := r.OutName()
	seen.add(from.Bits(), hasFrom)
	seen.add(to.Bits(), hasTo)
	seen.add(int(priority), hasPriority)
	seen.add(int(mark), hasMark)
	seen.add(int(mask), hasMask)
	seen.add(len(in), hasIn)
	seen.add(len(out), hasOut)
	seen.add(int(r.Table())+int(r.Action())+int(r.Flags())+int(r.Family())+int(r.TOS()), is)
	return is
}
