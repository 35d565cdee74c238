package rtnlc

// A List keeps messages when their datagrams are gone, as those of a whole dump that a Stream
// reads: a copy of the bytes of each, and of its events. It keeps all, those of one key too, and
// nothing bounds it but what its caller appends: Size says how far it has grown. The zero List is
// ready. It is not to be copied: Append and Reset of a copy panic.
type List struct {
	own          guard
	messages     []Message
	blocks, free []*Tape // blocks hold the copies, one behind another
}

// blockSize is how many bytes of messages a block holds, but for one that holds a longer message
// alone. Offsets in it are then far below what an Event can say, however long the list is.
const blockSize = 1 << 16

// Append copies messages to the end of the list. It takes no memory for each: blocks grow, as
// slices do by append.
func (l *List) Append(messages ...Message) {
	l.own.stay("List")
	for _, message := range messages {
		if message.tape != nil {
			bytes := message.head(headerSize)
			message = l.block(len(bytes), message.tape.big).keep(message, bytes)
		}
		l.messages = append(l.messages, message)
	}
}

// Messages are all of the list in the order in which they were appended, good until its Reset,
// whatever is appended to it meanwhile.
func (l *List) Messages() []Message { return l.messages[:len(l.messages):len(l.messages)] }

// Size is how many messages the list has, and how many bytes they have. Each message, and each
// attribute in it, takes sixteen bytes more.
func (l *List) Size() (count, bytes int) {
	for _, block := range l.blocks {
		bytes += len(block.datagram)
	}
	return len(l.messages), bytes
}

// Reset drops all messages, as those of a dump that was interrupted and is taken again. Their
// memory is kept for others.
func (l *List) Reset() {
	l.own.stay("List")
	for _, block := range l.blocks {
		block.datagram, block.events = block.datagram[:0], block.events[:0]
	}
	l.free = append(l.free, l.blocks...)
	l.blocks, l.messages = l.blocks[:0], l.messages[:0]
}

// block is the last block, or another behind it where that has too little room, or its numbers are
// of the other order.
func (l *List) block(size int, big bool) *Tape {
	last, free := len(l.blocks)-1, len(l.free)-1
	if last >= 0 && l.blocks[last].big == big && l.blocks[last].holds(size) {
		return l.blocks[last]
	}
	var made *Tape
	switch {
	case free >= 0:
		made, l.free = l.free[free], l.free[:free]
	case last >= 0 && l.blocks[last].holds(0): // with room for as much as the last one has
		made = &Tape{datagram: make([]byte, 0, cap(l.blocks[last].datagram)),
			events: make([]Event, 0, cap(l.blocks[last].events))}
	default:
		made = new(Tape)
	}
	made.big = big
	l.blocks = append(l.blocks, made)
	return made
}

// holds says whether a block may have so many bytes more.
func (t *Tape) holds(size int) bool { return len(t.datagram)+size <= blockSize }

// keep copies a message, which has these bytes, behind what the tape has.
func (t *Tape) keep(m Message, bytes []byte) Message {
	at, moved := uint32(len(t.events)), uint32(len(t.datagram))-m.event().Place
	t.datagram = append(t.datagram, bytes...)
	t.events = append(t.events, m.tape.events[m.at:m.end]...)
	for it := range t.events[at:] {
		t.events[int(at)+it].Place += moved
	}
	return Message{part{t, at, uint32(len(t.events))}}
}
